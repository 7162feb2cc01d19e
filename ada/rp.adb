--  The library's functions take no null address: each that takes one is called here, unless it is null.

with Ada.Strings.Fixed;
with Ada.Unchecked_Conversion;

package body RP is
   use type Interfaces.C.size_t;
   use type Interfaces.Unsigned_8;
   use type Interfaces.Unsigned_32;
   use type Interfaces.Unsigned_64;
   use type System.Address;

   package Library is
      function Packet_Length
        (Text   : System.Address;
         Count  : Interfaces.C.size_t;
         Length : in out Interfaces.C.size_t) return Status
        with Import, Convention => C, External_Name => "rp_packet_length";

      function Packet_Check
        (Text   : System.Address;
         Count  : Interfaces.C.size_t;
         Reason : in out Packet_Reason) return Status
        with Import, Convention => C, External_Name => "rp_packet_check";

      function Run_Deck
        (Deck   : System.Address;
         Count  : Interfaces.C.size_t;
         Traced : Interfaces.C.C_bool;
         Answer : System.Address;
         Size   : Interfaces.C.size_t;
         Used   : in out Interfaces.C.size_t) return Status
        with Import, Convention => C, External_Name => "rp_run_deck";

      function Node_Open
        (Deck   : System.Address;
         Count  : Interfaces.C.size_t;
         Number : Byte;
         Device : System.Address;
         Held   : Interfaces.C.size_t;
         Handle : in out Node;
         What   : in out Found) return Status
        with Import, Convention => C, External_Name => "rp_node_open";

      function Device_Header
        (Deck   : System.Address;
         Count  : Interfaces.C.size_t;
         Number : Byte;
         Header : System.Address;
         Size   : Interfaces.C.size_t) return Status
        with Import, Convention => C, External_Name => "rp_device_header";

      function Device_Open
        (Deck   : System.Address;
         Count  : Interfaces.C.size_t;
         Number : Byte;
         Device : System.Address;
         Held   : Interfaces.C.size_t;
         Handle : in out Node;
         What   : in out Found) return Status
        with Import, Convention => C, External_Name => "rp_device_open";

      function Next_Deck
        (Handle : in out Node;
         Deck   : System.Address;
         Count  : Interfaces.C.size_t;
         Answer : System.Address;
         Size   : Interfaces.C.size_t;
         Used   : in out Interfaces.C.size_t) return Status
        with Import, Convention => C, External_Name => "rp_next_deck";

      function Node_Step
        (Handle  : in out Node;
         Request : System.Address;
         Count   : Interfaces.C.size_t;
         Answer  : System.Address;
         Size    : Interfaces.C.size_t;
         Places  : System.Address;
         Most    : Interfaces.C.size_t;
         Length  : in out Step_Lengths) return Status
        with Import, Convention => C, External_Name => "rp_node_step";

      function Node_Receive
        (Handle : in out Node;
         Packet : System.Address;
         Count  : Interfaces.C.size_t;
         Answer : System.Address;
         Size   : Interfaces.C.size_t;
         Places : System.Address;
         Most   : Interfaces.C.size_t;
         Length : in out Step_Lengths) return Status
        with Import, Convention => C, External_Name => "rp_node_receive";

      function Task_Receive
        (Handle : in out Task_Stub;
         Packet : System.Address;
         Count  : Interfaces.C.size_t;
         Answer : System.Address;
         Size   : Interfaces.C.size_t;
         Length : in out Lengths) return Status
        with Import, Convention => C, External_Name => "rp_task_receive";

      --  A call by the handle at this address, of a node or a task.
      function Handle_Call
        (Kind    : Byte;
         Handle  : System.Address;
         Request : System.Address;
         Count   : Interfaces.C.size_t;
         Answer  : System.Address;
         Size    : Interfaces.C.size_t;
         Length  : in out Lengths) return Status
        with Import, Convention => C, External_Name => "rp_handle_call";
   end Library;

   --  Which of the two a handle keeps.

   Node_Handle : constant Byte := 1;
   Task_Handle : constant Byte := 2;

   None : aliased Byte := 0;

   No_End : aliased Interfaces.C.size_t := 0;

   --  Whether an array has bytes, and is nowhere.
   function Is_Null (First : System.Address; Count : Interfaces.C.size_t) return Boolean is
     (First = System.Null_Address and then Count > 0);

   --  Where an array is that is not null: also where it has no byte, an address that is not null.
   function Place (First : System.Address) return System.Address is
     (if First = System.Null_Address then None'Address else First);

   --  The same of an array of ends.
   function Ends_Place (First : System.Address) return System.Address is
     (if First = System.Null_Address then No_End'Address else First);

   function Packet_Length
     (Text   : System.Address;
      Count  : Interfaces.C.size_t;
      Length : in out Interfaces.C.size_t) return Status is
     (if Is_Null (Text, Count) then Null_Pointer
      else Library.Packet_Length (Place (Text), Count, Length));

   function Packet_Check
     (Text   : System.Address;
      Count  : Interfaces.C.size_t;
      Reason : in out Packet_Reason) return Status is
     (if Is_Null (Text, Count) then Null_Pointer
      else Library.Packet_Check (Place (Text), Count, Reason));

   function Run_Deck
     (Deck   : System.Address;
      Count  : Interfaces.C.size_t;
      Traced : Interfaces.C.C_bool;
      Answer : System.Address;
      Size   : Interfaces.C.size_t;
      Used   : in out Interfaces.C.size_t) return Status is
     (if Is_Null (Deck, Count) or else Is_Null (Answer, Size) then Null_Pointer
      else Library.Run_Deck (Place (Deck), Count, Traced, Place (Answer), Size, Used));

   function Node_Open
     (Deck   : System.Address;
      Count  : Interfaces.C.size_t;
      Number : Byte;
      Device : System.Address;
      Held   : Interfaces.C.size_t;
      Handle : in out Node;
      What   : in out Found) return Status is
     (if Is_Null (Deck, Count) or else Is_Null (Device, Held) then Null_Pointer
      else Library.Node_Open (Place (Deck), Count, Number, Place (Device), Held, Handle, What));

   function Device_Header
     (Deck   : System.Address;
      Count  : Interfaces.C.size_t;
      Number : Byte;
      Header : System.Address;
      Size   : Interfaces.C.size_t) return Status is
     (if Is_Null (Deck, Count) or else Is_Null (Header, Size) then Null_Pointer
      else Library.Device_Header (Place (Deck), Count, Number, Place (Header), Size));

   function Device_Open
     (Deck   : System.Address;
      Count  : Interfaces.C.size_t;
      Number : Byte;
      Device : System.Address;
      Held   : Interfaces.C.size_t;
      Handle : in out Node;
      What   : in out Found) return Status is
     (if Is_Null (Deck, Count) or else Is_Null (Device, Held) then Null_Pointer
      else Library.Device_Open (Place (Deck), Count, Number, Place (Device), Held, Handle, What));

   function Next_Deck
     (Handle : in out Node;
      Deck   : System.Address;
      Count  : Interfaces.C.size_t;
      Answer : System.Address;
      Size   : Interfaces.C.size_t;
      Used   : in out Interfaces.C.size_t) return Status is
     (if Is_Null (Deck, Count) or else Is_Null (Answer, Size) then Null_Pointer
      else Library.Next_Deck (Handle, Place (Deck), Count, Place (Answer), Size, Used));

   --  The call of both kinds, unless an address is null.
   function Handle_Call
     (Kind    : Byte;
      Handle  : System.Address;
      Request : System.Address;
      Count   : Interfaces.C.size_t;
      Answer  : System.Address;
      Size    : Interfaces.C.size_t;
      Length  : in out Lengths) return Status is
     (if Is_Null (Request, Count) or else Is_Null (Answer, Size) then Null_Pointer
      else Library.Handle_Call (Kind, Handle, Place (Request), Count, Place (Answer), Size, Length));

   function Node_Call
     (Handle  : in out Node;
      Request : System.Address;
      Count   : Interfaces.C.size_t;
      Answer  : System.Address;
      Size    : Interfaces.C.size_t;
      Length  : in out Lengths) return Status is
     (Handle_Call (Node_Handle, Handle'Address, Request, Count, Answer, Size, Length));

   function Node_Step
     (Handle  : in out Node;
      Request : System.Address;
      Count   : Interfaces.C.size_t;
      Answer  : System.Address;
      Size    : Interfaces.C.size_t;
      Places  : System.Address;
      Most    : Interfaces.C.size_t;
      Length  : in out Step_Lengths) return Status is
     (if Is_Null (Request, Count) or else Is_Null (Answer, Size) or else Is_Null (Places, Most)
      then Null_Pointer
      else Library.Node_Step
        (Handle, Place (Request), Count, Place (Answer), Size, Ends_Place (Places), Most, Length));

   function Task_Call
     (Handle  : in out Task_Stub;
      Request : System.Address;
      Count   : Interfaces.C.size_t;
      Answer  : System.Address;
      Size    : Interfaces.C.size_t;
      Length  : in out Lengths) return Status is
     (Handle_Call (Task_Handle, Handle'Address, Request, Count, Answer, Size, Length));

   function Node_Receive
     (Handle  : in out Node;
      Packet  : System.Address;
      Count   : Interfaces.C.size_t;
      Answer  : System.Address;
      Size    : Interfaces.C.size_t;
      Places  : System.Address;
      Most    : Interfaces.C.size_t;
      Length  : in out Step_Lengths) return Status is
     (if Is_Null (Packet, Count) or else Is_Null (Answer, Size) or else Is_Null (Places, Most)
      then Null_Pointer
      else Library.Node_Receive
        (Handle, Place (Packet), Count, Place (Answer), Size, Ends_Place (Places), Most, Length));

   function Task_Receive
     (Handle  : in out Task_Stub;
      Packet  : System.Address;
      Count   : Interfaces.C.size_t;
      Answer  : System.Address;
      Size    : Interfaces.C.size_t;
      Length  : in out Lengths) return Status is
     (if Is_Null (Packet, Count) or else Is_Null (Answer, Size) then Null_Pointer
      else Library.Task_Receive (Handle, Place (Packet), Count, Place (Answer), Size, Length));

   --  Typed calls

   --  The bytes of a number, the first of them first.
   function Text_Of (Number : Interfaces.Unsigned_64; Count : Positive) return Bytes is
      Text : Bytes (1 .. Count);
      Rest : Interfaces.Unsigned_64 := Number;
   begin
      for At_Place in reverse Text'Range loop
         Text (At_Place) := Byte (Rest mod 256);
         Rest := Rest / 256;
      end loop;
      return Text;
   end Text_Of;

   --  The number that four bytes from this one on are.
   function Number_Of (Text : Bytes; First : Positive) return Interfaces.Unsigned_32 is
      Number : Interfaces.Unsigned_32 := 0;
   begin
      for At_Place in First .. First + 3 loop
         Number := Number * 256 + Interfaces.Unsigned_32 (Text (At_Place));
      end loop;
      return Number;
   end Number_Of;

   function Bits_Of is new Ada.Unchecked_Conversion (Interfaces.Integer_64, Interfaces.Unsigned_64);

   function Signed_Of is new Ada.Unchecked_Conversion (Interfaces.Unsigned_64, Interfaces.Integer_64);

   --  A step by the bytes of its request.
   function Step_By
     (Handle  : in out Node;
      Request : Bytes;
      Answer  : in out Bytes;
      Places  : in out Ends;
      Length  : in out Step_Lengths) return Status is
     (Node_Step
        (Handle, Request'Address, Request'Length, Answer'Address, Answer'Length, Places'Address,
         Places'Length, Length));

   function Node_Take
     (Handle : in out Node;
      Packet : Bytes;
      Answer : in out Bytes;
      Places : in out Ends;
      Length : in out Step_Lengths) return Status is
     (Node_Receive
        (Handle, Packet'Address, Packet'Length, Answer'Address, Answer'Length, Places'Address,
         Places'Length, Length));

   function Node_Lead
     (Handle : in out Node;
      Answer : in out Bytes;
      Places : in out Ends;
      Length : in out Step_Lengths) return Status is
     (Step_By (Handle, (1 => Lead), Answer, Places, Length));

   function Node_Lead_At
     (Handle   : in out Node;
      Position : Interfaces.Unsigned_16;
      Answer   : in out Bytes;
      Places   : in out Ends;
      Length   : in out Step_Lengths) return Status is
     (Step_By
        (Handle, Lead & Text_Of (Interfaces.Unsigned_64 (Position), 2), Answer, Places, Length));

   function Node_Lead_Range
     (Handle : in out Node;
      First  : Interfaces.Unsigned_16;
      Count  : Byte;
      Answer : in out Bytes;
      Places : in out Ends;
      Length : in out Step_Lengths) return Status is
     (Step_By
        (Handle, Lead_Range & Text_Of (Interfaces.Unsigned_64 (First), 2) & Count, Answer, Places,
         Length));

   function Node_Ask
     (Handle : in out Node;
      Whom   : Byte;
      Answer : in out Bytes;
      Places : in out Ends;
      Length : in out Step_Lengths) return Status is
     (Step_By (Handle, Ask & Whom, Answer, Places, Length));

   function Node_Interrupt
     (Handle     : in out Node;
      Source     : Byte;
      Occurrence : Interfaces.Unsigned_32;
      Answer     : in out Bytes;
      Places     : in out Ends;
      Length     : in out Step_Lengths) return Status is
     (Step_By
        (Handle, Interrupt & Source & Text_Of (Interfaces.Unsigned_64 (Occurrence), 4), Answer, Places,
         Length));

   function Node_Tick
     (Handle : in out Node;
      Now    : Interfaces.Unsigned_32;
      Answer : in out Bytes;
      Places : in out Ends;
      Length : in out Step_Lengths) return Status is
     (Step_By (Handle, Tick & Text_Of (Interfaces.Unsigned_64 (Now), 4), Answer, Places, Length));

   function Node_Report
     (Handle : in out Node;
      First  : Interfaces.Unsigned_16;
      Answer : in out Bytes;
      Places : in out Ends;
      Length : in out Step_Lengths) return Status is
     (Step_By
        (Handle, Report & Text_Of (Interfaces.Unsigned_64 (First), 2), Answer, Places, Length));

   --  A question whose answer is a number of four bytes.
   function Number_By
     (Handle  : in out Node;
      Request : Bytes;
      Number  : in out Interfaces.Unsigned_32) return Status
   is
      Answer : Bytes (1 .. 4) := (others => 0);
      Length : Lengths;
      Result : constant Status :=
        Node_Call (Handle, Request'Address, Request'Length, Answer'Address, Answer'Length, Length);
   begin
      if Result = Done then
         Number := Number_Of (Answer, 1);
      end if;
      return Result;
   end Number_By;

   function Node_Applied (Handle : in out Node; Number : in out Interfaces.Unsigned_32) return Status is
     (Number_By (Handle, (1 => Applied), Number));

   function Node_Left (Handle : in out Node; Number : in out Interfaces.Unsigned_32) return Status is
     (Number_By (Handle, (1 => Left), Number));

   function Node_Pending (Handle : in out Node; Number : in out Interfaces.Unsigned_32) return Status is
     (Number_By (Handle, (1 => Pending), Number));

   function Node_Counted
     (Handle : in out Node;
      Caller : Byte;
      Number : in out Interfaces.Unsigned_32) return Status is
     (Number_By (Handle, (Counted, Caller), Number));

   function Node_Occurred
     (Handle : in out Node;
      Source : Byte;
      Number : in out Interfaces.Unsigned_32) return Status is
     (Number_By (Handle, (Occurred, Source), Number));

   function Node_Next_Timer
     (Handle : in out Node;
      Answer : in out Bytes;
      Is_Set : in out Boolean;
      Time   : in out Interfaces.Integer_64) return Status
   is
      Request : constant Bytes := (1 => Image);
      Length  : Lengths;
      Result  : constant Status :=
        Node_Call (Handle, Request'Address, Request'Length, Answer'Address, Answer'Length, Length);

      --  A line of the image: of a timing event that is set it is `timer NAME at TIME`.
      procedure Take_Line (Line : String) is
         Place : constant Natural := Ada.Strings.Fixed.Index (Line, " at ", Ada.Strings.Backward);
         Set   : Interfaces.Integer_64;
      begin
         if Place > Line'First + 6 and then Line (Line'First .. Line'First + 5) = "timer " then
            Set := Interfaces.Integer_64'Value (Line (Place + 4 .. Line'Last));
            Time := (if Is_Set then Interfaces.Integer_64'Min (Time, Set) else Set);
            Is_Set := True;
         end if;
      end Take_Line;
   begin
      if Result /= Done then
         return Result;
      end if;
      Is_Set := False;
      declare
         Text : String (1 .. Natural (Length.Used));
         From : Positive := 1;
      begin
         for Place in Text'Range loop
            Text (Place) := Character'Val (Answer (Answer'First + Place - 1));
            if Text (Place) = ASCII.LF then
               Take_Line (Text (From .. Place - 1));
               From := Place + 1;
            end if;
         end loop;
      end;
      return Done;
   end Node_Next_Timer;

   --  The packet that a request to a task gives.
   function Packet_By
     (Handle  : in out Task_Stub;
      Request : Bytes;
      Packet  : in out Call_Packet) return Status
   is
      Length : Lengths;
      Result : constant Status :=
        Task_Call
          (Handle, Request'Address, Request'Length, Packet.Text'Address, Packet.Text'Length, Length);
   begin
      if Result = Done then
         Packet.Count := Natural (Length.Used);
      end if;
      return Result;
   end Packet_By;

   function Task_Operation
     (Handle   : in out Task_Stub;
      Through  : Byte;
      Object   : Byte;
      Kind     : Byte;
      Index    : Byte;
      Argument : Interfaces.Integer_64;
      Packet   : in out Call_Packet) return Status is
     (Packet_By
        (Handle,
         (Make_Call, Through, Object, Kind, Index) & Text_Of (Bits_Of (Argument), 8),
         Packet));

   function Task_Again
     (Handle  : in out Task_Stub;
      Through : Byte;
      Packet  : in out Call_Packet) return Status is
     (Packet_By (Handle, (Send_Again, Through), Packet));

   function Task_Take
     (Handle : in out Task_Stub;
      Packet : Bytes;
      Reply  : in out Call_Reply) return Status
   is
      Answer : Bytes (1 .. Task_Bytes) := (others => 0);
      Length : Lengths;
      Result : constant Status :=
        Task_Receive
          (Handle, Packet'Address, Packet'Length, Answer'Address, Answer'Length, Length);
   begin
      if Result = Done then
         Reply := (Kind => (if Length.Used = 0 then 0 else Answer (1)), Value => 0);
         if Reply.Kind = Value_Reply then
            Reply.Value := Signed_Of
              (Interfaces.Unsigned_64 (Number_Of (Answer, 2)) * 2 ** 32
               + Interfaces.Unsigned_64 (Number_Of (Answer, 6)));
         elsif Reply.Kind = Truth_Reply then
            Reply.Value := Interfaces.Integer_64 (Answer (2));
         end if;
      end if;
      return Result;
   end Task_Take;
end RP;
