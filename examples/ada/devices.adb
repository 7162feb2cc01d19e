--  A device with a header: its own node opens it, another does not; a step says where its packets end; a
--  lead that is too far is no lead at the end of the log; what is left of a torn record, and of a changed
--  one, is told apart.

with Ada.Text_IO;
with Interfaces.C;
with RP;

procedure Devices is
   use Ada.Text_IO;
   use type Interfaces.C.size_t;

   subtype Count is Interfaces.C.size_t;

   Line : constant Character := ASCII.LF;
   Deck : aliased constant String :=
     "nodes 3" & Line & "task writer 5" & Line & "object tank 9" & Line & "int level 0 100 0" & Line
     & "procedure fill" & Line & "set level add level arg" & Line & "out level" & Line & "end" & Line
     & "script" & Line;

   Device : RP.Bytes (1 .. 4_096) := (others => 0);
   Length : Count := RP.Header_Bytes;
   Answer : RP.Bytes (1 .. RP.Step_Bytes);
   Places : RP.Ends (1 .. 8) := (others => 0);
   Lead   : constant RP.Bytes := (1 => RP.Lead);
   Far    : constant RP.Bytes := (RP.Lead, 0, 65);
   Left   : constant RP.Bytes := (1 => RP.Left);
   Node   : RP.Node;

   --  Opens a node over the first bytes of the device, and closes it.
   procedure Open (Name : String; Number : RP.Byte; Held : Count) is
      What   : RP.Found;
      Result : constant RP.Status :=
        RP.Device_Open (Deck'Address, Deck'Length, Number, Device'Address, Held, Node, What);
   begin
      Put_Line
        (Name & ": status" & Result'Image & ", records" & What.Records'Image & ", kept"
         & What.Kept'Image & ", tail" & What.Tail'Image);
      RP.Node_Close (Node);
   end Open;

   What   : RP.Found;
   Parts  : RP.Step_Lengths;
   Result : RP.Status;
begin
   Result := RP.Device_Header (Deck'Address, Deck'Length, 2, Device'Address, Device'Length);
   Put_Line ("header: status" & Result'Image);
   Result := RP.Device_Open (Deck'Address, Deck'Length, 2, Device'Address, Length, Node, What);
   Put_Line ("open: status" & Result'Image);
   Result :=
     RP.Node_Step
       (Node, Lead'Address, Lead'Length, Answer'Address, Answer'Length, Places'Address, Places'Length,
        Parts);
   Put_Line
     ("step: status" & Result'Image & ", stored" & Parts.Stored'Image & ", used" & Parts.Used'Image
      & ", packets" & Parts.Packets'Image & ", dropped" & Parts.Dropped'Image);
   for At_Place in 1 .. Positive (Parts.Packets) loop
      Put_Line ("  ends at" & Places (At_Place)'Image);
   end loop;
   for At_Place in 1 .. Positive (Parts.Stored) loop
      Device (Positive (Length) + At_Place) := Answer (At_Place);
   end loop;
   Length := Length + Parts.Stored;
   Result :=
     RP.Node_Step
       (Node, Far'Address, Far'Length, Answer'Address, Answer'Length, Places'Address, Places'Length,
        Parts);
   Put_Line ("lead at 65: status" & Result'Image);
   Result :=
     RP.Node_Step
       (Node, Left'Address, Left'Length, Answer'Address, Answer'Length, Places'Address, Places'Length,
        Parts);
   Put_Line
     ("left: status" & Result'Image & ","
      & Integer'Image (256 * Integer (Answer (3)) + Integer (Answer (4))));
   RP.Node_Close (Node);

   Open ("its own device", 2, Length);
   Open ("another node's", 1, Length);
   Open ("torn", 2, Length - 1);
   Device (RP.Header_Bytes + 2) := 99;
   Open ("changed", 2, Length);

   Result := RP.Node_Open (Deck'Address, Deck'Length / 2, 1, Device'Address, 0, Node, What);
   Put_Line
     ("a deck that is cut off: status" & Result'Image & ", line" & What.Line'Image & ", reason"
      & What.Reason'Image);
end Devices;
