--  Stations that go on by advice alone: a call that comes early, a stray call, a gap, a node that comes back to a quiet
--  cluster, a cluster without node 1, a call that one node has alone, and when the next timer is due. Three nodes of a
--  deck with a gate, over arrays; in each turn of a millisecond each node does what the advice says.

with Ada.Text_IO;
with Interfaces;
with Interfaces.C;
with RP;

procedure Advised is
   use Ada.Text_IO;
   use type Interfaces.C.size_t;
   use type Interfaces.Unsigned_32;
   use type Interfaces.Unsigned_8;

   Line : constant Character := ASCII.LF;
   Deck : aliased constant String :=
     "nodes 3" & Line & "positions 1000" & Line & "task guest 5" & Line & "task keeper 5" & Line & "object gate 9"
     & Line & "int n 0 1000000 0" & Line & "bool up false" & Line & "function read value n" & Line & "procedure lift"
     & Line & "put up true" & Line & "end" & Line & "entry pass when up" & Line & "put up false" & Line
     & "set n add n 1" & Line & "out n" & Line & "end" & Line & "timer soon gate.lift" & Line
     & "timer later gate.lift" & Line & "script" & Line;

   subtype Number is RP.Byte range 1 .. 3;
   subtype Caller is RP.Byte range 1 .. 2;
   Guest  : constant Caller := 1;
   Keeper : constant Caller := 2;

   --  No device is opened again but that of a node with none, so what a step gives for it is not kept.
   Nodes   : array (Number) of RP.Node;
   Waits   : array (Number) of RP.Patience;
   Away    : array (Number) of Boolean := (others => False);
   Whom    : array (Number) of RP.Byte := (others => 1);
   Callers : array (Caller) of RP.Task_Stub;
   Replies : array (Caller) of RP.Call_Reply;
   Queue   : RP.Bytes (1 .. 65_536) := (others => 0);
   Sent    : Natural := 0;
   Answer  : RP.Bytes (1 .. RP.Step_Bytes) := (others => 0);
   Places  : RP.Ends (1 .. 64) := (others => 0);
   Parts   : RP.Step_Lengths;

   procedure Must (Result : RP.Status) is
   begin
      if Result /= RP.Done then
         raise Program_Error with "status" & Result'Image;
      end if;
   end Must;

   --  The packets of a step. Here a device that is a file is synced first.
   procedure Keep (Result : RP.Status) is
      Count : constant Natural := Natural (Parts.Used - Parts.Stored);
   begin
      Must (Result);
      Queue (Sent + 1 .. Sent + Count) := Answer (Positive (Parts.Stored + 1) .. Natural (Parts.Used));
      Sent := Sent + Count;
   end Keep;

   procedure Deliver_One (Packet : RP.Bytes) is
      To    : constant RP.Byte := Packet (Packet'First + 3);
      Reply : RP.Call_Reply;
   begin
      if To in Number then
         if not Away (To) then
            Keep (RP.Node_Take (Nodes (To), Packet, Answer, Places, Parts));
         end if;
      else
         Must (RP.Task_Take (Callers (To - RP.Task_Party), Packet, Reply));
         if Reply.Kind /= 0 then
            Replies (To - RP.Task_Party) := Reply;
         end if;
      end if;
   end Deliver_One;

   --  Delivers what was sent, and what is sent by that.
   procedure Deliver is
      Length : Interfaces.C.size_t := 0;
      From   : Positive := 1;
   begin
      while From <= Sent loop
         Must (RP.Packet_Length (Queue (From)'Address, Interfaces.C.size_t (Sent - From + 1), Length));
         Deliver_One (Queue (From .. From + Positive (Length) - 1));
         From := From + Positive (Length);
      end loop;
      Sent := 0;
   end Deliver;

   --  A node does what the advice says, until it says nothing.
   procedure Advise (Node : Number) is
      Turns : Interfaces.Unsigned_64 := 1;
      What  : RP.Advice;
   begin
      loop
         Must (RP.Node_Advise (Nodes (Node), Waits (Node), Turns, What));
         case What.Kind is
            when RP.Advice_Lead => Keep (RP.Node_Lead_At (Nodes (Node), What.Position, Answer, Places, Parts));
            when RP.Advice_Ask =>
               loop
                  Whom (Node) := Whom (Node) mod 3 + 1;
                  exit when Whom (Node) /= Node;
               end loop;
               Keep (RP.Node_Ask (Nodes (Node), Whom (Node), Answer, Places, Parts));
            when others => exit;
         end case;
         Turns := 0;
      end loop;
   end Advise;

   procedure Turn is
   begin
      for Node in Number loop
         if not Away (Node) then
            Advise (Node);
         end if;
         Deliver;
      end loop;
   end Turn;

   function Applied (Node : Number) return Interfaces.Unsigned_32 is
   begin
      return Count : Interfaces.Unsigned_32 := 0 do
         Must (RP.Node_Applied (Nodes (Node), Count));
      end return;
   end Applied;

   --  A caller's call through a node, of a kind of operation with index 1.
   procedure Call
     (By      : Caller;
      Through : Number;
      Kind    : RP.Byte;
      Index   : RP.Byte := 1;
      Value   : Interfaces.Integer_64 := 0)
   is
      Packet : RP.Call_Packet;
   begin
      Replies (By).Kind := 0;
      Must (RP.Task_Operation (Callers (By), Through, 1, Kind, Index, Value, Packet));
      Keep (RP.Node_Take (Nodes (Through), Packet.Text (1 .. Packet.Count), Answer, Places, Parts));
   end Call;

   --  Turns until the caller has its reply, for which it sends its call again after each 100.
   function Turns_To_Reply (By : Caller; Through : Number) return Natural is
      Packet : RP.Call_Packet;
      Turns  : Natural := 0;
   begin
      while Replies (By).Kind = 0 and then Turns < 100_000 loop
         Turn;
         Turns := Turns + 1;
         if Turns mod 100 = 0 and then Replies (By).Kind = 0 then
            Must (RP.Task_Again (Callers (By), Through, Packet));
            Keep (RP.Node_Take (Nodes (Through), Packet.Text (1 .. Packet.Count), Answer, Places, Parts));
         end if;
      end loop;
      return Turns;
   end Turns_To_Reply;

   procedure Open_Node (Node : Number) is
      What : RP.Found;
   begin
      Must (RP.Node_Open (Deck'Address, Deck'Length, Node, Deck'Address, 0, Nodes (Node), What));
      Waits (Node) := (others => <>);
   end Open_Node;

   procedure Open_All (Story : String) is
   begin
      Put_Line (Story);
      for Node in Number loop
         Open_Node (Node);
         Away (Node) := False;
      end loop;
      Must (RP.Task_Open (Guest, Callers (Guest)));
      Must (RP.Task_Open (Keeper, Callers (Keeper)));
   end Open_All;

   --  The guest stops while its call waits at the closed gate, and goes on.
   procedure A_Task_Goes_On is
      Turns : Natural;
   begin
      Open_All ("A task that stopped while it waited");
      Call (Guest, 1, RP.An_Entry);
      Turn;
      Must (RP.Task_Open_After (Guest, 1, Callers (Guest)));
      Call (Guest, 1, RP.A_Function);
      Put_Line ("  its next call is dropped by" & Parts.Dropped'Image);
      for Count in 1 .. 1000 loop
         Turn;
      end loop;
      Put_Line ("  1000 turns later positions used:" & Interfaces.Unsigned_32'Image (Applied (1) - 1));
      Call (Keeper, 1, RP.A_Procedure);
      Turns := Turns_To_Reply (Keeper, 1);
      Turns := Turns_To_Reply (Guest, 1);
      Put_Line
        ("  the gate is lifted; the next call has its reply" & Replies (Guest).Kind'Image & " within" & Turns'Image
         & " turns, positions used:" & Interfaces.Unsigned_32'Image (Applied (1) - 1));
   end A_Task_Goes_On;

   --  A call with a number that is too high comes, again and again.
   procedure A_Stray_Call is
      Stray  : RP.Task_Stub;
      Packet : RP.Call_Packet;
      Missed : RP.Dropped_Kind := RP.Dropped_Nothing;
   begin
      Open_All ("A stray call");
      Must (RP.Task_Open_After (Guest, 76, Stray));
      Must (RP.Task_Operation (Stray, 1, 1, RP.A_Function, 1, 0, Packet));
      for Count in 1 .. 1000 loop
         Keep (RP.Node_Take (Nodes (1), Packet.Text (1 .. Packet.Count), Answer, Places, Parts));
         Missed := Parts.Dropped;
         Turn;
      end loop;
      Put_Line ("  dropped by" & Missed'Image & ", positions used:" & Applied (1)'Image);
      Call (Keeper, 1, RP.A_Procedure);
      if Turns_To_Reply (Keeper, 1) > 0 then
         Put_Line
           ("  another task's call has its reply" & Replies (Keeper).Kind'Image & ", positions used:"
            & Applied (1)'Image);
      end if;
      RP.Task_Close (Stray);
   end A_Stray_Call;

   --  The packets of a lead are lost, and the next call is decided above it.
   procedure A_Gap is
   begin
      Open_All ("A gap");
      Call (Guest, 1, RP.A_Function);
      Advise (1);
      Sent := 0;
      Call (Keeper, 1, RP.A_Procedure);
      if Turns_To_Reply (Keeper, 1) + Turns_To_Reply (Guest, 1) > 0 then
         Put_Line
           ("  both have their replies" & Replies (Guest).Kind'Image & " and" & Replies (Keeper).Kind'Image
            & ", positions used:" & Applied (1)'Image);
      end if;
   end A_Gap;

   --  A call comes to node 2 alone while node 1 is busy: its task sends it again, through the next node each
   --  time.
   procedure A_Busy_Cluster is
      Packet  : RP.Call_Packet;
      Through : Number := 2;
      Turns   : Natural := 0;
      Calls   : Natural := 0;
   begin
      Open_All ("A call that one node has, while another leads");
      Call (Guest, Through, RP.A_Function);
      while Replies (Guest).Kind = 0 and then Turns < 1000 loop
         if Calls = 0 or else Replies (Keeper).Kind /= 0 then
            Call (Keeper, 1, RP.A_Procedure);
            Calls := Calls + 1;
         end if;
         Turn;
         Turns := Turns + 1;
         if Turns mod 8 = 0 and then Replies (Guest).Kind = 0 then
            Through := Through mod 3 + 1;
            Must (RP.Task_Again (Callers (Guest), Through, Packet));
            Keep (RP.Node_Take (Nodes (Through), Packet.Text (1 .. Packet.Count), Answer, Places, Parts));
         end if;
      end loop;
      Put_Line ("  it has its reply after" & Turns'Image & " turns and" & Calls'Image & " calls of another task");
   end A_Busy_Cluster;

   --  Node 3 is away for 200 calls, and comes back when nothing happens any more.
   procedure A_Node_Comes_Back is
      Turns : Natural := 0;
   begin
      Open_All ("A node that comes back to a quiet cluster");
      Away (3) := True;
      for Made in 1 .. 200 loop
         Call (Keeper, 1, RP.A_Procedure);
         Turns := Turns_To_Reply (Keeper, 1);
      end loop;
      Away (3) := False;
      Open_Node (3);
      Turns := 0;
      while Applied (3) < Applied (1) and then Turns < 100_000 loop
         Turn;
         Turns := Turns + 1;
      end loop;
      Put_Line ("  it missed" & Applied (1)'Image & " positions, and has them after" & Turns'Image & " turns");
   end A_Node_Comes_Back;

   --  Node 1 is away: node 2 begins once its wait is over, and then leads on.
   procedure Without_Node_1 is
      Turns : Natural;
   begin
      Open_All ("Without node 1");
      Away (1) := True;
      for Made in 1 .. 101 loop
         Call (Keeper, 2, RP.A_Procedure);
         Turns := Turns_To_Reply (Keeper, 2);
         if Made in 1 | 2 | 101 then
            Put_Line ("  call" & Made'Image & " has its reply after" & Turns'Image & " turns");
         end if;
      end loop;
      Put_Line ("  positions used:" & Applied (2)'Image);
   end Without_Node_1;

   --  The keeper sets two timers, and cancels one.
   procedure Timers is
      procedure Set (Kind, Index : RP.Byte; Value : Interfaces.Integer_64) is
         Is_Set : Boolean := False;
         Time   : Interfaces.Integer_64 := 0;
      begin
         Call (Keeper, 1, Kind, Index, Value);
         if Turns_To_Reply (Keeper, 1) > 0 then
            Must (RP.Node_Next_Timer (Nodes (1), Answer, Is_Set, Time));
            Put_Line (if Is_Set then "  the next timer is due at" & Time'Image else "  no timer is set");
         end if;
      end Set;
   begin
      Open_All ("Timers");
      Set (RP.Cancel_Timer, 1, 0);
      Set (RP.Set_Timer, 2, Interfaces.Integer_64'Last);
      Set (RP.Set_Timer, 1, 70);
      Set (RP.Cancel_Timer, 1, 0);
   end Timers;

begin
   A_Task_Goes_On;
   A_Stray_Call;
   A_Gap;
   A_Node_Comes_Back;
   Without_Node_1;
   A_Busy_Cluster;
   Timers;
end Advised;
