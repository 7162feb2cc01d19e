with Ada.Directories;
with Ada.Text_IO;
with GNAT.OS_Lib;
with Interfaces.C.Strings;
with System;

package body Device is
   use type Interfaces.C.int;
   use type Interfaces.C.long;
   use type Interfaces.C.size_t;
   use type Interfaces.Unsigned_32;
   use type RP.Status;

   subtype Count is Interfaces.C.size_t;
   subtype Int is Interfaces.C.int;
   subtype Long is Interfaces.C.long;

   --  What Ada's files lack: a lock, a sync, and a truncation.
   function C_Open (Path : Interfaces.C.Strings.chars_ptr; Flags, Mode : Int) return Int
     with Import, Convention => C, External_Name => "open";
   function C_Lock (File, How : Int) return Int with Import, Convention => C, External_Name => "flock";
   function C_Read (File : Int; To : System.Address; Size : Count) return Long
     with Import, Convention => C, External_Name => "read";
   function C_Write (File : Int; From : System.Address; Size : Count) return Long
     with Import, Convention => C, External_Name => "write";
   function C_Sync (File : Int) return Int with Import, Convention => C, External_Name => "fdatasync";
   function C_Truncate (File : Int; Size : Long) return Int
     with Import, Convention => C, External_Name => "ftruncate";
   function C_Seek (File : Int; Place : Long; From : Int) return Long
     with Import, Convention => C, External_Name => "lseek";

   Read_Write         : constant := 8#2000002#;  --  with close on exec
   Write_Create_New   : constant := 8#2000301#;
   Read_Only          : constant := 8#2000000#;
   Write_Create_Empty : constant := 8#2001101#;
   Exclusive          : constant := 2;

   File : Int := -1;
   Held : RP.Bytes (1 .. 2**24);

   procedure Must (Holds : Boolean; What : String) is
   begin
      if not Holds then
         Ada.Text_IO.Put_Line (Ada.Text_IO.Standard_Error, "the device: " & What);
         GNAT.OS_Lib.OS_Exit (1);
      end if;
   end Must;

   procedure Append (Bytes : RP.Bytes) is
   begin
      Must (Bytes'Length = 0 or else C_Write (File, Bytes'Address, Bytes'Length) = Long (Bytes'Length), "write");
   end Append;

   procedure Sync is
   begin
      Must (C_Sync (File) = 0, "sync");
   end Sync;

   --  What is in a folder is there after a stop only once the folder is synced.
   procedure Sync_Folder_Of (Name : String) is
      Folder : Int;
   begin
      Folder :=
        C_Open (Interfaces.C.Strings.New_String (Ada.Directories.Containing_Directory (Name)), Read_Only, 0);
      Must (Folder >= 0 and then C_Sync (Folder) = 0, "its folder");
   end Sync_Folder_Of;

   procedure Make (Deck : RP.Bytes; Number : RP.Byte; Name : String) is
      Header : RP.Bytes (1 .. RP.Header_Bytes);
   begin
      Must
        (RP.Device_Header (Deck'Address, Deck'Length, Number, Header'Address, Header'Length) = RP.Done,
         "the deck has no such node");
      File := C_Open (Interfaces.C.Strings.New_String (Name), Write_Create_New, 8#644#);
      Must (File >= 0, Name);
      Append (Header);
      Sync;
      Sync_Folder_Of (Name);
   end Make;

   procedure Open (Deck : RP.Bytes; Number : RP.Byte; Name : String; Node : in out RP.Node) is
      Length : Long;
      Found  : RP.Found;
   begin
      File := C_Open (Interfaces.C.Strings.New_String (Name), Read_Write, 0);
      Must (File >= 0 and then C_Lock (File, Exclusive) = 0, Name);  --  RULE 3: one handle
      Length := C_Read (File, Held'Address, Held'Length);
      Must  --  RULE 3: its own device
        (RP.Device_Open (Deck'Address, Deck'Length, Number, Held'Address, Count (Length), Node, Found) = RP.Done
         and then Found.Tail /= RP.Damaged_Tail,
         "it is refused");
      Length := RP.Header_Bytes + Long (Found.Kept);
      Must (C_Truncate (File, Length) = 0 and then C_Seek (File, Length, 0) = Length, "truncate");
      Sync;  --  RULE 3: what is after the last whole record is gone before the first step
   end Open;

   function C_Rename (From, To : Interfaces.C.Strings.chars_ptr) return Int
     with Import, Convention => C, External_Name => "rename";

   Is_Put : Boolean := False;

   procedure Put_Next_Deck (Node : in out RP.Node; Deck : RP.Bytes; Name : String) is
      Part   : Interfaces.C.Strings.chars_ptr;
      Left   : Interfaces.Unsigned_32 := 0;
      Used   : Count := 0;
      Result : RP.Status;
      Next   : Int;
   begin
      Result := RP.Node_Left (Node, Left);
      if Is_Put or else Result /= RP.Done or else Left > 0 then
         return;
      end if;
      Is_Put := True;
      Result := RP.Next_Deck (Node, Deck'Address, Deck'Length, Held'Address, Held'Length, Used);
      if Result /= RP.Done then
         Ada.Text_IO.Put_Line (Ada.Text_IO.Standard_Error, "no next deck:" & Result'Image);
         return;
      end if;
      Part := Interfaces.C.Strings.New_String (Name & ".part");
      Next := C_Open (Part, Write_Create_Empty, 8#644#);
      Must
        (Next >= 0 and then C_Write (Next, Held'Address, Used) = Long (Used) and then C_Sync (Next) = 0
         and then C_Rename (Part, Interfaces.C.Strings.New_String (Name & ".deck")) = 0,
         "its next deck");
   end Put_Next_Deck;

end Device;
