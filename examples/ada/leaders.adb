--  Who leads, by typed calls: what a node is advised to do, what is pending, and a task that restarts. Three
--  nodes of a deck, over arrays; each packet is received where it lies.

with Ada.Text_IO;
with Interfaces;
with Interfaces.C;
with RP;

procedure Leaders is
   use Ada.Text_IO;
   use type Interfaces.C.size_t;
   use type Interfaces.Integer_64;
   use type Interfaces.Unsigned_8;

   Line : constant Character := ASCII.LF;
   Deck : aliased constant String :=
     "nodes 3" & Line & "task writer 5" & Line & "object tank 9" & Line & "int level 0 100 0" & Line
     & "procedure fill" & Line & "set level add level arg" & Line & "out level" & Line & "end" & Line
     & "script" & Line;

   subtype Number is RP.Byte range 1 .. 3;

   --  No device is opened again, so what a step gives for it is not kept.
   Nodes   : array (Number) of RP.Node;
   Waits   : array (Number) of RP.Patience;
   Writer  : RP.Task_Stub;
   Queue   : RP.Bytes (1 .. 16_384) := (others => 0);
   Sent    : Natural := 0;
   Answer  : RP.Bytes (1 .. RP.Step_Bytes) := (others => 0);
   Places  : RP.Ends (1 .. 8) := (others => 0);
   Parts   : RP.Step_Lengths;

   procedure Must (Result : RP.Status) is
   begin
      if Result /= RP.Done then
         raise Program_Error with "status" & Result'Image;
      end if;
   end Must;

   procedure Send (Text : RP.Bytes) is
   begin
      Queue (Sent + 1 .. Sent + Text'Length) := Text;
      Sent := Sent + Text'Length;
   end Send;

   --  The packets of a step. Here a device that is a file is synced first.
   procedure Send_Step is
   begin
      Send (Answer (Positive (Parts.Stored + 1) .. Natural (Parts.Used)));
   end Send_Step;

   procedure Deliver is
      Length : Interfaces.C.size_t := 0;
      From   : Positive := 1;
      Reply  : RP.Call_Reply;
   begin
      while From <= Sent loop
         Must (RP.Packet_Length (Queue (From)'Address, Interfaces.C.size_t (Sent - From + 1), Length));
         declare
            Packet : RP.Bytes renames Queue (From .. From + Positive (Length) - 1);
            To     : constant RP.Byte := Queue (From + 3);
         begin
            if To in Number then
               Must (RP.Node_Take (Nodes (To), Packet, Answer, Places, Parts));
               Send_Step;
            else
               Must (RP.Task_Take (Writer, Packet, Reply));
               if Reply.Kind /= 0 then
                  Put_Line ("reply: kind" & Reply.Kind'Image & ", value" & Reply.Value'Image);
               end if;
            end if;
         end;
         From := From + Positive (Length);
      end loop;
      Sent := 0;
   end Deliver;

   procedure Fill (Amount : Interfaces.Integer_64; Through : Number) is
      Packet : RP.Call_Packet;
   begin
      Must (RP.Task_Operation (Writer, Through, 1, RP.A_Procedure, 1, Amount, Packet));
      Send (Packet.Text (1 .. Packet.Count));
      Deliver;
   end Fill;

   --  Does what a node is advised to do.
   procedure Follow (Node : Number; Turns : Interfaces.Unsigned_64) is
      What : RP.Advice;
   begin
      Must (RP.Node_Advise (Nodes (Node), Waits (Node), Turns, What));
      Put_Line
        ("node" & Node'Image & " after" & Turns'Image & " turns: advice" & What.Kind'Image & ", position"
         & What.Position'Image);
      if What.Kind = RP.Advice_Lead then
         Must (RP.Node_Lead_At (Nodes (Node), What.Position, Answer, Places, Parts));
         Send_Step;
         Deliver;
      end if;
   end Follow;

   procedure Show (Node : Number) is
      Applied, Left, Pending, Counted : Interfaces.Unsigned_32 := 99;
   begin
      Must (RP.Node_Applied (Nodes (Node), Applied));
      Must (RP.Node_Left (Nodes (Node), Left));
      Must (RP.Node_Pending (Nodes (Node), Pending));
      Must (RP.Node_Counted (Nodes (Node), 1, Counted));
      Put_Line
        ("node" & Node'Image & ": applied" & Applied'Image & ", left" & Left'Image & ", pending"
         & Pending'Image & ", counted" & Counted'Image);
   end Show;

   --  Whether node 3 may lead there.
   procedure Say_Lead (Position : Interfaces.Unsigned_16) is
   begin
      Put_Line
        ("a lead at" & Position'Image & ": status"
         & RP.Status'Image (RP.Node_Lead_At (Nodes (3), Position, Answer, Places, Parts)));
   end Say_Lead;

   What : RP.Found;
begin
   for Node in Number loop
      Must (RP.Node_Open (Deck'Address, Deck'Length, Node, Deck'Address, 0, Nodes (Node), What));
   end loop;
   Must (RP.Task_Open (1, Writer));
   Fill (7, 1);
   Show (1);
   Follow (1, 0);
   Show (1);
   Fill (5, 2);
   Follow (2, 63);
   Follow (2, 1);
   Show (2);

   --  The task restarts after its two calls: its next call is its third. Node 2 led last, so node 1 waits.
   RP.Task_Close (Writer);
   Must (RP.Task_Open_After (1, 2, Writer));
   Fill (-2, 1);
   Follow (1, 31);
   Follow (1, 1);
   Show (1);
   Put_Line ("task 9: status" & RP.Status'Image (RP.Task_Open_After (9, 2, Writer)));

   --  Position 4 is the first that is not learned, and the log has 1,000.
   Say_Lead (67);
   Say_Lead (68);
   Say_Lead (1_001);
   Must (RP.Node_Ask (Nodes (2), 1, Answer, Places, Parts));
   Put_Line ("node 2 asks node 1: stored" & Parts.Stored'Image & ", packets" & Parts.Packets'Image);
   Put_Line
     ("node 2 asks itself: status" & RP.Status'Image (RP.Node_Ask (Nodes (2), 2, Answer, Places, Parts)));
   for Node in Number loop
      RP.Node_Close (Nodes (Node));
   end loop;
   RP.Task_Close (Writer);
end Leaders;
