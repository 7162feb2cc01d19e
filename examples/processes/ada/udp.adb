with Ada.Sequential_IO;
with GNAT.OS_Lib;
with GNAT.Sockets; use GNAT.Sockets;

package body Udp is
   use Ada.Streams;
   use type RP.Byte;
   use type RP.Bytes;

   package Byte_IO is new Ada.Sequential_IO (RP.Byte);

   function Deck_Text (Name : String) return RP.Bytes is
      File   : Byte_IO.File_Type;
      Text   : RP.Bytes (1 .. 2**20);
      Length : Natural := 0;
   begin
      Byte_IO.Open (File, Byte_IO.In_File, Name, Form => "shared=no");  --  each task of a program opens it
      while not Byte_IO.End_Of_File (File) loop
         Length := Length + 1;
         Byte_IO.Read (File, Text (Length));
      end loop;
      Byte_IO.Close (File);
      return Text (1 .. Length);
   end Deck_Text;

   function Port_Of (Port : Natural) return Sock_Addr_Type is
     ((Family => Family_Inet, Addr => Loopback_Inet_Addr, Port => Port_Type (Port)));

   procedure Open (Each : in out Link; Deck : String; Party : RP.Byte; First, To : Natural) is
      Text   : constant RP.Bytes := Deck_Text (Deck);
      Header : RP.Bytes (1 .. RP.Header_Bytes);
   begin
      if RP.Device_Header (Text'Address, Text'Length, 1, Header'Address, Header'Length) /= RP.Done then
         GNAT.OS_Lib.OS_Exit (1);
      end if;
      Each.Mark := Header (9 .. 16);  --  the first bytes of the digest
      Each.To := To;
      Create_Socket (Each.Socket, Family_Inet, Socket_Datagram);
      Set_Socket_Option (Each.Socket, Socket_Level, (Receive_Buffer, 2**22));
      Set_Socket_Option (Each.Socket, Socket_Level, (Receive_Timeout, 0.002));
      Bind_Socket (Each.Socket, Port_Of (First + Natural (Party)));
   end Open;

   procedure Send (Each : Link; Packet : RP.Bytes) is
      All_Bytes : constant RP.Bytes := Each.Mark & Packet;
      Sent      : Datagram (1 .. All_Bytes'Length) with Import, Address => All_Bytes'Address;
      Last      : Stream_Element_Offset;
   begin
      Send_Socket (Each.Socket, Sent, Last, Port_Of (Each.To + Natural (Packet (Packet'First + 3))));
   exception
      when Socket_Error => null;  --  a process that is down: the packet is lost
   end Send;

   function Is_Ready (Each : Link) return Boolean is
      Bytes : Request_Type (N_Bytes_To_Read);
   begin
      Control_Socket (Each.Socket, Bytes);
      return Bytes.Size > 0;
   end Is_Ready;

   procedure Receive (Each : Link; Packet : in out RP.Bytes; Last : out Natural) is
      Got   : Datagram (1 .. Most_Datagram);
      Bytes : RP.Bytes (1 .. Most_Datagram) with Import, Address => Got'Address;
      Count : Stream_Element_Offset;
      From  : Sock_Addr_Type;
   begin
      Last := 0;
      Receive_Socket (Each.Socket, Got, Count, From);
      if Count > Mark_Bytes and then Bytes (1 .. Mark_Bytes) = Each.Mark then
         Last := Packet'First + Natural (Count) - Mark_Bytes - 1;
         Packet (Packet'First .. Last) := Bytes (Mark_Bytes + 1 .. Natural (Count));
      end if;
   exception
      when Socket_Error => null;  --  nothing came in time
   end Receive;

end Udp;
