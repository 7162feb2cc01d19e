--  A station that goes on over new devices: the log of three nodes ends after one call, and each node gives the text
--  of the next deck.

with Ada.Text_IO;
with Interfaces.C;
with RP;

procedure Stations is
   use type Interfaces.C.size_t;
   use type RP.Byte;
   use type RP.Bytes;

   LF : constant Character := Character'Val (10);

   Deck : constant String :=
     "nodes 3" & LF & "positions 1" & LF & "task writer 5" & LF & "object tank 9" & LF & "int level 0 100 0" & LF
     & "procedure fill" & LF & "set level add level arg" & LF & "out level" & LF & "end" & LF & "script" & LF;

   type Run is record
      Bytes  : RP.Bytes (1 .. 4_096);
      Length : Natural := 0;
   end record;

   Devices : array (RP.Byte range 1 .. 3) of Run;
   Nodes   : array (RP.Byte range 1 .. 3) of RP.Node;
   Writer  : RP.Task_Stub;
   Queue   : Run;
   Answer  : RP.Bytes (1 .. RP.Step_Bytes);
   Ends    : RP.Ends (1 .. 16);
   Made    : RP.Step_Lengths;

   procedure Must (Holds : Boolean) is
   begin
      if not Holds then
         raise Program_Error;
      end if;
   end Must;

   procedure Append (To : in out Run; Bytes : RP.Bytes) is
   begin
      To.Bytes (To.Length + 1 .. To.Length + Bytes'Length) := Bytes;
      To.Length := To.Length + Bytes'Length;
   end Append;

   --  What a step gave: its record is on the device before its packets are sent.
   procedure Keep (Number : RP.Byte; Result : RP.Status) is
   begin
      Must (Result = RP.Done);
      Append (Devices (Number), Answer (1 .. Natural (Made.Stored)));
      Append (Queue, Answer (Natural (Made.Stored) + 1 .. Natural (Made.Used)));
   end Keep;

   procedure Begin_Station is
      Found : RP.Found;
   begin
      for Number in Devices'Range loop
         Must
           (RP.Device_Header (Deck'Address, Deck'Length, Number, Devices (Number).Bytes'Address, RP.Header_Bytes)
            = RP.Done);
         Devices (Number).Length := RP.Header_Bytes;
         Must
           (RP.Device_Open
              (Deck'Address, Deck'Length, Number, Devices (Number).Bytes'Address, RP.Header_Bytes, Nodes (Number), Found)
            = RP.Done);
      end loop;
      Must (RP.Task_Open (1, Writer) = RP.Done);
   end Begin_Station;

   --  One call: node 1 leads, and every packet is delivered.
   procedure Call (Argument : Interfaces.Integer_64) is
      Packet : RP.Call_Packet;
      Reply  : RP.Call_Reply;
      Place  : Natural := 1;
      Count  : Interfaces.C.size_t := 0;
   begin
      Must (RP.Task_Operation (Writer, 1, 1, RP.A_Procedure, 1, Argument, Packet) = RP.Done);
      Keep (1, RP.Node_Take (Nodes (1), Packet.Text (1 .. Packet.Count), Answer, Ends, Made));
      Keep (1, RP.Node_Lead (Nodes (1), Answer, Ends, Made));
      while Place <= Queue.Length loop
         Must
           (RP.Packet_Length
              (Queue.Bytes (Place)'Address, Interfaces.C.size_t (Queue.Length - Place + 1), Count) = RP.Done);
         declare
            Sent : constant RP.Bytes := Queue.Bytes (Place .. Place + Natural (Count) - 1);
            To   : constant RP.Byte := Queue.Bytes (Place + 3);
         begin
            if To in Nodes'Range then
               Keep (To, RP.Node_Take (Nodes (To), Sent, Answer, Ends, Made));
            else
               Must (RP.Task_Take (Writer, Sent, Reply) = RP.Done);
            end if;
         end;
         Place := Place + Natural (Count);
      end loop;
      Ada.Text_IO.Put_Line ("reply" & Reply.Value'Image);
   end Call;

   procedure Ask (What : String) is
      Next   : array (Devices'Range) of Run;
      Used   : Interfaces.C.size_t := 0;
      Result : RP.Status := RP.Done;
   begin
      for Number in Devices'Range loop
         Result := RP.Next_Deck
           (Nodes (Number), Deck'Address, Deck'Length, Next (Number).Bytes'Address, 4_096, Used);
         Next (Number).Length := Natural (Used);
         Must (Next (Number).Bytes (1 .. Natural (Used)) = Next (1).Bytes (1 .. Next (1).Length));
      end loop;
      Ada.Text_IO.Put_Line (What & ": status" & Result'Image);
      for Each of Next (1).Bytes (1 .. Next (1).Length) loop
         if Character'Val (Each) = LF then
            Ada.Text_IO.New_Line;
         else
            Ada.Text_IO.Put (Character'Val (Each));
         end if;
      end loop;
   end Ask;

begin
   Begin_Station;
   Ask ("one position is left");
   Call (7);
   Ask ("the log has ended");
   declare
      task Other;  --  a handle may pass from one task of this program to another between calls
      task body Other is
      begin
         Ask ("asked by another task");
      end Other;
   begin
      null;
   end;
   for Each of Nodes loop
      RP.Node_Close (Each);
   end loop;
   RP.Task_Close (Writer);
end Stations;
