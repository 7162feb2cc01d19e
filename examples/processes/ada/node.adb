--  A node of a deck as a process, in Ada under Ravenscar, beside those of c/node.c: a file is its device, and packets are
--  datagrams.
--
--     node DECK NUMBER NODES DEVICE init
--     node DECK NUMBER NODES DEVICE PORT [TO]
--
--  The first makes a fresh device, once in the life of an installation; nothing else does (docs/C.md, "Fresh devices").
--  What the theorem asks of a caller (docs/C.md) is kept at the lines that are marked by RULE, here and in device.adb.

with Ada.Command_Line;
with Ada.Exceptions;
with Ada.Real_Time;
with Ada.Text_IO;
with Device;
with GNAT.OS_Lib;
with Interfaces.C;
with RP;
with Udp;

procedure Node with Priority => 10 is
   use Ada.Command_Line;
   use Ada.Real_Time;
   use type Interfaces.C.size_t;
   use type RP.Byte;

   Batch        : constant := 64;
   Most_Packets : constant := 128;

   --  Packets one after another, and where each ends.
   type Packets is record
      Bytes : RP.Bytes (1 .. 2 * Batch * RP.Step_Bytes);
      Ends  : RP.Ends (1 .. 2 * Batch * Most_Packets);
      Count : Natural := 0;
   end record;

   function Number (Place : Positive) return Natural is (Natural'Value (Argument (Place)));

   Me    : constant RP.Byte := RP.Byte (Number (2));
   Nodes : constant RP.Byte := RP.Byte (Number (3));

   Deck : constant RP.Bytes := Udp.Deck_Text (Argument (1));

   Handle   : RP.Node;
   Patience : RP.Patience;
   Link     : Udp.Link;

   --  What the steps of this turn gave: bytes for the device, and packets that wait for its sync.
   Records  : RP.Bytes (1 .. 2 * Batch * RP.Step_Bytes);
   Recorded : Natural := 0;
   Waiting  : Packets;
   Own      : Packets;

   function End_Of (From : Packets; Place : Natural) return Natural is
     (if Place = 0 then 0 else Natural (From.Ends (Place)));

   function Packet (From : Packets; Place : Positive) return RP.Bytes is
     (From.Bytes (End_Of (From, Place - 1) + 1 .. End_Of (From, Place)));

   procedure Add (To : in out Packets; Bytes : RP.Bytes) is
      Start : constant Natural := End_Of (To, To.Count);
   begin
      To.Bytes (Start + 1 .. Start + Bytes'Length) := Bytes;
      To.Count := To.Count + 1;
      To.Ends (To.Count) := Interfaces.C.size_t (Start + Bytes'Length);
   end Add;

   --  Where a step's answer goes.
   Answer : RP.Bytes (1 .. RP.Step_Bytes);
   Ends   : RP.Ends (1 .. Most_Packets);
   Made   : RP.Step_Lengths;

   --  Keeps what a step gave. What is refused changed nothing: a packet counts as lost then, and a lead is tried again.
   procedure Keep (Result : RP.Status) is
      Start : Natural := Natural (Made.Stored);
   begin
      if Result /= RP.Done then
         return;
      end if;
      Records (Recorded + 1 .. Recorded + Start) := Answer (1 .. Start);
      Recorded := Recorded + Start;
      for Place in 1 .. Natural (Made.Packets) loop
         Add (Waiting, Answer (Start + 1 .. Natural (Made.Stored + Ends (Place))));
         Start := Natural (Made.Stored + Ends (Place));
      end loop;
   end Keep;

   procedure Store_Records is
   begin
      if Recorded > 0 then
         Device.Append (Records (1 .. Recorded));
         Device.Sync;
         Recorded := 0;
      end if;
   end Store_Records;

   --  Sends what the steps gave; a packet to this node itself is received in the next turn.
   procedure Hand_On_Packets is
   begin
      for Place in 1 .. Waiting.Count loop
         if Waiting.Bytes (End_Of (Waiting, Place - 1) + 4) = Me then
            Add (Own, Packet (Waiting, Place));
         else
            Udp.Send (Link, Packet (Waiting, Place));
         end if;
      end loop;
      Waiting.Count := 0;
   end Hand_On_Packets;

   --  Receives what came: at first a wait, unless there are packets of its own. RULE 2: the only bytes that the node is
   --  given as packets are those of datagrams with this installation's mark, and its own.
   procedure Receive_Packets is
      Arrived : RP.Bytes (1 .. RP.Step_Bytes);
      Last    : Natural;
      Waits   : Boolean := Own.Count = 0;
   begin
      for Place in 1 .. Own.Count loop
         Keep (RP.Node_Take (Handle, Packet (Own, Place), Answer, Ends, Made));
      end loop;
      Own.Count := 0;
      for Got in 1 .. Batch loop
         exit when not Waits and then not Udp.Is_Ready (Link);
         Udp.Receive (Link, Arrived, Last);
         Waits := False;
         exit when Last = 0;
         Keep (RP.Node_Take (Handle, Arrived (1 .. Last), Answer, Ends, Made));
      end loop;
   end Receive_Packets;

   Asked : RP.Byte := Me;

   --  Asks another node, each in turn, for the positions that this one misses.
   procedure Ask_Another is
   begin
      loop
         Asked := Asked mod Nodes + 1;
         exit when Asked /= Me;
      end loop;
      Keep (RP.Node_Ask (Handle, Asked, Answer, Ends, Made));
   end Ask_Another;

   Before : Time := Clock;

   --  Does what the advice says, until it says nothing; a turn of the node's patience is a millisecond.
   procedure Do_What_Is_Advised is
      Now    : constant Time := Clock;
      Passed : Natural := Natural ((Now - Before) / Milliseconds (1));
      Advice : RP.Advice;
   begin
      Before := Before + Milliseconds (Passed);
      loop
         exit when RP.Node_Advise (Handle, Patience, Interfaces.Unsigned_64 (Passed), Advice) /= RP.Done;
         case Advice.Kind is
            when RP.Advice_Lead => Keep (RP.Node_Lead_At (Handle, Advice.Position, Answer, Ends, Made));
            when RP.Advice_Ask  => Ask_Another;
            when others         => exit;
         end case;
         Passed := 0;
      end loop;
   end Do_What_Is_Advised;

begin
   if Argument (5) = "init" then
      Device.Make (Deck, Me, Argument (4));
      GNAT.OS_Lib.OS_Exit (0);
   end if;
   Device.Open (Deck, Me, Argument (4), Handle);
   Udp.Open (Link, Argument (1), Me, Number (5), Number (if Argument_Count > 5 then 6 else 5));
   loop
      Receive_Packets;
      Do_What_Is_Advised;
      Store_Records;    --  RULE 1: what the steps gave is synced ..
      Hand_On_Packets;  --  .. before a packet of theirs leaves
      Device.Put_Next_Deck (Handle, Deck, Argument (4));
   end loop;
exception
   when Fault : others =>  --  under Ravenscar a program whose main procedure has ended would stand still
      Ada.Text_IO.Put_Line (Ada.Text_IO.Standard_Error, Ada.Exceptions.Exception_Information (Fault));
      GNAT.OS_Lib.OS_Exit (1);
end Node;
