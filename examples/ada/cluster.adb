with Ada.Streams;
with Ada.Text_IO;
with Ada.Text_IO.Text_Streams;
with Ada.Unchecked_Conversion;
with Interfaces.C;
with System;

package body Cluster is
   use Ada.Streams;
   use Ada.Text_IO;
   use type Interfaces.C.size_t;
   use type Interfaces.Unsigned_8;
   use type Interfaces.Unsigned_64;

   subtype Count is Interfaces.C.size_t;

   type Store is array (Count range 1 .. 65_536) of aliased RP.Byte with Convention => C;

   --  Bytes that grow: a device, or the packets that are sent.
   type Run is record
      Bytes  : Store;
      Length : Count := 0;
   end record;

   Deck        : Store;
   Deck_Length : Count := 0;
   Nodes       : array (Node_Number) of RP.Node;
   Devices     : array (Node_Number) of Run;
   Writer      : RP.Task_Stub;
   Queue       : Run;
   Delivered   : Count := 0;
   Answer      : array (Count range 1 .. RP.Step_Bytes) of aliased RP.Byte with Convention => C;

   --  The reply that the task took last.
   Has_Reply : Boolean := False;
   Kind_Of   : RP.Byte := 0;
   Content   : Interfaces.Unsigned_64 := 0;

   procedure Must (Result : RP.Status) is
   begin
      if Result /= RP.Done then
         raise Program_Error with "status" & Result'Image;
      end if;
   end Must;

   --  Puts the bytes From to To of the answer after the others.
   procedure Append (Bytes : in out Run; From, To : Count) is
   begin
      for At_Place in From .. To loop
         Bytes.Length := Bytes.Length + 1;
         Bytes.Bytes (Bytes.Length) := Answer (At_Place);
      end loop;
   end Append;

   --  Opens a node over its device, of which it keeps the whole records; returns how many bytes were torn.
   function Opened (Number : Node_Number; Records : out Count) return Count is
      Device : Run renames Devices (Number);
      Before : constant Count := Device.Length;
      What   : RP.Found;
   begin
      Must
        (RP.Node_Open
           (Deck'Address, Deck_Length, Number, Device.Bytes'Address, Device.Length, Nodes (Number),
            What));
      Device.Length := What.Kept;
      Records := What.Records;
      return Before - What.Kept;
   end Opened;

   --  A step of a node: its record is put on the device, and only then are its packets sent.
   procedure Step (Number : Node_Number; Request : System.Address; Length : Count) is
      Lengths : RP.Lengths;
   begin
      Must
        (RP.Node_Call
           (Nodes (Number), Request, Length, Answer'Address, Answer'Length, Lengths));
      Append (Devices (Number), 1, Lengths.Stored);
      --  Here a device that is a file is synced.
      Append (Queue, Lengths.Stored + 1, Lengths.Used);
   end Step;

   --  The task takes the reply that a packet carries, where it is to its outstanding call.
   procedure Take (Request : System.Address; Length : Count) is
      Lengths : RP.Lengths;
   begin
      Must (RP.Task_Call (Writer, Request, Length, Answer'Address, Answer'Length, Lengths));
      if Lengths.Used > 0 then
         Has_Reply := True;
         Kind_Of := Answer (1);
         Content := 0;
         for At_Place in 2 .. Lengths.Used loop
            Content := Content * 256 + Interfaces.Unsigned_64 (Answer (At_Place));
         end loop;
      end if;
   end Take;

   --  Delivers all packets, in the order in which they were sent.
   procedure Drain is
   begin
      while Delivered < Queue.Length loop
         declare
            Length : Count := 0;
         begin
            Must
              (RP.Packet_Length
                 (Queue.Bytes (Delivered + 1)'Address, Queue.Length - Delivered, Length));
            declare
               To      : constant RP.Byte := Queue.Bytes (Delivered + 4);
               Request : array (Count range 0 .. Length) of aliased RP.Byte with Convention => C;
            begin
               for At_Place in 1 .. Length loop
                  Request (At_Place) := Queue.Bytes (Delivered + At_Place);
               end loop;
               Delivered := Delivered + Length;
               if To in Node_Number then
                  Request (0) := RP.Receive;
                  Step (To, Request'Address, Length + 1);
               else
                  Request (0) := RP.Take_Packet;
                  Take (Request'Address, Length + 1);
               end if;
            end;
         end;
      end loop;
   end Drain;

   procedure Open is
      Text : Stream_Element_Array (1 .. Store'Length);
      Last : Stream_Element_Offset;
      None : Count;
   begin
      Read (Text_Streams.Stream (Standard_Input).all, Text, Last);
      for At_Place in 1 .. Last loop
         Deck (Count (At_Place)) := RP.Byte (Text (At_Place));
      end loop;
      Deck_Length := Count (Last);
      for Number in Node_Number loop
         if Opened (Number, None) /= 0 then
            raise Program_Error with "torn bytes on a new device";
         end if;
      end loop;
      Must (RP.Task_Open (1, Writer));
   end Open;

   function Call (Object, Kind, Index : RP.Byte; Argument : Value) return Value is
      function Unsigned is new Ada.Unchecked_Conversion (Value, Interfaces.Unsigned_64);
      function Signed is new Ada.Unchecked_Conversion (Interfaces.Unsigned_64, Value);
      Request : array (Count range 1 .. 13) of aliased RP.Byte with Convention => C;
      Left    : Interfaces.Unsigned_64 := Unsigned (Argument);
      Lengths : RP.Lengths;
      Lead    : aliased RP.Byte := RP.Lead;
   begin
      Request (1 .. 5) := (RP.Make_Call, 1, Object, Kind, Index);
      for At_Place in reverse Count range 6 .. 13 loop
         Request (At_Place) := RP.Byte (Left mod 256);
         Left := Left / 256;
      end loop;
      Must
        (RP.Task_Call
           (Writer, Request'Address, Request'Length, Answer'Address, Answer'Length, Lengths));
      Append (Queue, 1, Lengths.Used);
      Has_Reply := False;
      Drain;
      while not Has_Reply loop
         Step (1, Lead'Address, 1);
         Drain;
      end loop;
      case Kind_Of is
         when RP.Value_Reply | RP.Truth_Reply => return Signed (Content);
         when RP.Constraint_Reply => raise Constraint_Error;
         when others => raise Program_Error;
      end case;
   end Call;

   procedure Restart (Number : Node_Number) is
      Records, Torn : Count;
      function Image (Of_Count : Count) return String is
        (Of_Count'Image (2 .. Of_Count'Image'Last));
   begin
      RP.Node_Close (Nodes (Number));
      Torn := Opened (Number, Records);
      Put_Line ("node" & Number'Image & " open records " & Image (Records) & " cut " & Image (Torn));
   end Restart;

   --  Asks a node a question; returns how many bytes its answer has.
   function Asked (Number : Node_Number; Question : RP.Byte) return Count is
      Request : aliased constant RP.Byte := Question;
      Lengths : RP.Lengths;
   begin
      Must
        (RP.Node_Call
           (Nodes (Number), Request'Address, 1, Answer'Address, Answer'Length, Lengths));
      return Lengths.Used;
   end Asked;

   procedure Show is
      Applied : Interfaces.Unsigned_64;
   begin
      for Number in Node_Number loop
         Applied := 0;
         for At_Place in 1 .. Asked (Number, RP.Applied) loop
            Applied := Applied * 256 + Interfaces.Unsigned_64 (Answer (At_Place));
         end loop;
         Put_Line ("node" & Number'Image & " applied" & Applied'Image);
         for At_Place in 1 .. Asked (Number, RP.Image) loop
            if Answer (At_Place) = 10 then
               New_Line;
            else
               Put (Character'Val (Answer (At_Place)));
            end if;
         end loop;
      end loop;
   end Show;

   procedure Close is
   begin
      for Handle of Nodes loop
         RP.Node_Close (Handle);
      end loop;
      RP.Task_Close (Writer);
   end Close;

end Cluster;
