--  Datagrams between the processes of one deck, on this machine alone: as c/udp.h.

with Ada.Streams;
with GNAT.Sockets;
with RP;

package Udp is

   subtype Datagram is Ada.Streams.Stream_Element_Array;

   Mark_Bytes    : constant := 8;
   Most_Datagram : constant := Mark_Bytes + RP.Step_Bytes;

   type Link is limited private;

   procedure Open (Each : in out Link; Deck : String; Party : RP.Byte; First, To : Natural);
   --  The socket of a party of the deck in this file, which gets at First + Party and sends to To + the
   --  receiver. Its datagrams begin with a mark, eight bytes of the deck's digest.

   function Deck_Text (Name : String) return RP.Bytes;
   --  The bytes of a file.

   procedure Send (Each : Link; Packet : RP.Bytes);
   --  Sends a packet to its receiver, which may lose it.

   function Is_Ready (Each : Link) return Boolean;
   --  Whether a datagram is there, so that Receive does not wait.

   procedure Receive (Each : Link; Packet : in out RP.Bytes; Last : out Natural);
   --  Waits for a datagram of this installation, at most two milliseconds, and puts its packet into
   --  Packet (Packet'First .. Last); Last is 0 if none came.

private

   type Link is limited record
      Socket : GNAT.Sockets.Socket_Type;
      To     : Natural := 0;
      Mark   : RP.Bytes (1 .. Mark_Bytes);
   end record;

end Udp;
