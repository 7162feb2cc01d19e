--  Each function that takes an address, with each of its addresses null: Null_Pointer, and nothing has
--  changed. An array of no bytes may be null. It reads decks/a_node_restarts_from_its_bytes.deck on
--  standard input, for its declarations.

with Ada.Streams;
with Ada.Text_IO;
with Ada.Text_IO.Text_Streams;
with Interfaces.C;
with RP;
with System;

procedure Nulls is
   use Ada.Streams;
   use Ada.Text_IO;
   use type Interfaces.C.size_t;
   use type RP.Bytes;
   use type RP.Ends;
   use type RP.Found;
   use type RP.Lengths;
   use type RP.Packet_Reason;
   use type RP.Step_Lengths;

   subtype Count is Interfaces.C.size_t;

   Null_Place : System.Address renames System.Null_Address;
   Untraced   : constant Interfaces.C.C_bool := Interfaces.C.C_bool (False);

   Deck     : Stream_Element_Array (1 .. 65_536);
   Last     : Stream_Element_Offset;
   Packet   : constant RP.Bytes := (2, 2, 1, 2, 0, 1, 0, 0, 0, 0, 0, 0, 0, 9);
   Question : constant RP.Bytes := (1 => RP.Applied);
   Again    : constant RP.Bytes := (RP.Send_Again, 1);
   Sevens   : constant RP.Bytes := (1 .. RP.Step_Bytes => 7);

   --  What a call may write.
   Answer : RP.Bytes := Sevens;
   Used   : Count := 7;
   Reason : RP.Packet_Reason := 7;
   What   : RP.Found := (7, 7, 7, 7, 7);
   Length : RP.Lengths := (7, 7);
   Parts  : RP.Step_Lengths := (7, 7, 7, 7);
   Places : RP.Ends := (1 => 7);

   Node : RP.Node;
   Stub : RP.Task_Stub;

   --  Says whether what a call may write is as it was, and makes it so.
   procedure Say (Name : String; Result : RP.Status) is
      Same : constant Boolean :=
        Answer = Sevens and then Used = 7 and then Reason = 7 and then What = (7, 7, 7, 7, 7)
        and then Length = (7, 7) and then Parts = (7, 7, 7, 7) and then Places = (1 => 7);
   begin
      Put_Line (Name & ": status" & Result'Image & ", " & (if Same then "the same" else "changed"));
      Answer := Sevens;
      Used := 7;
      Reason := 7;
      What := (7, 7, 7, 7, 7);
      Length := (7, 7);
      Parts := (7, 7, 7, 7);
      Places := (1 => 7);
   end Say;

   Size : Count;
begin
   Read (Text_Streams.Stream (Standard_Input).all, Deck, Last);
   Size := Count (Last);
   Say ("length: bytes", RP.Packet_Length (Null_Place, 14, Used));
   Say ("length: no bytes", RP.Packet_Length (Null_Place, 0, Used));
   Say ("check: bytes", RP.Packet_Check (Null_Place, 14, Reason));
   Say
     ("run: deck",
      RP.Run_Deck (Null_Place, Size, Untraced, Answer'Address, Answer'Length, Used));
   Say ("run: answer", RP.Run_Deck (Deck'Address, Size, Untraced, Null_Place, 1, Used));
   Say ("run: no answer", RP.Run_Deck (Deck'Address, Size, Untraced, Null_Place, 0, Used));
   Say ("open: deck", RP.Node_Open (Null_Place, Size, 1, Packet'Address, 0, Node, What));
   Say ("open: device", RP.Node_Open (Deck'Address, Size, 1, Null_Place, 1, Node, What));
   Say
     ("by the closed handle",
      RP.Node_Call (Node, Question'Address, 1, Answer'Address, Answer'Length, Length));
   Say
     ("open a node with no device",
      RP.Node_Open (Deck'Address, Size, 1, Null_Place, 0, Node, What));
   Say ("open a task", RP.Task_Open (1, Stub));
   Say
     ("step: ends",
      RP.Node_Step
        (Node, Question'Address, 1, Answer'Address, Answer'Length, Null_Place, 1, Parts));
   Say
     ("step: answer",
      RP.Node_Step
        (Node, Question'Address, 1, Null_Place, Answer'Length, Places'Address, 1, Parts));
   Say
     ("header: header",
      RP.Device_Header (Deck'Address, Size, 1, Null_Place, Answer'Length));
   Say
     ("open a device: device",
      RP.Device_Open (Deck'Address, Size, 1, Null_Place, 1, Node, What));
   Say ("call: request", RP.Node_Call (Node, Null_Place, 1, Answer'Address, Answer'Length, Length));
   Say ("call: answer", RP.Node_Call (Node, Question'Address, 1, Null_Place, Answer'Length, Length));
   Say
     ("receive: packet",
      RP.Node_Receive
        (Node, Null_Place, 14, Answer'Address, Answer'Length, Places'Address, 1, Parts));
   Say
     ("receive: answer",
      RP.Node_Receive
        (Node, Packet'Address, 14, Null_Place, Answer'Length, Places'Address, 1, Parts));
   Say
     ("receive: ends",
      RP.Node_Receive
        (Node, Packet'Address, 14, Answer'Address, Answer'Length, Null_Place, 1, Parts));
   Say
     ("a task receives: packet",
      RP.Task_Receive (Stub, Null_Place, 14, Answer'Address, Answer'Length, Length));
   Say
     ("a task receives: answer",
      RP.Task_Receive (Stub, Packet'Address, 14, Null_Place, Answer'Length, Length));
   Say
     ("call a task: request",
      RP.Task_Call (Stub, Null_Place, 2, Answer'Address, Answer'Length, Length));
   Say
     ("call a task: answer",
      RP.Task_Call (Stub, Again'Address, 2, Null_Place, Answer'Length, Length));
   Say
     ("a call", RP.Node_Call (Node, Question'Address, 1, Answer'Address, Answer'Length, Length));
   Say ("no request", RP.Node_Call (Node, Null_Place, 0, Answer'Address, Answer'Length, Length));
   Say
     ("the task's call",
      RP.Task_Call (Stub, Again'Address, 2, Answer'Address, Answer'Length, Length));
   RP.Node_Close (Node);
   RP.Task_Close (Stub);
end Nulls;
