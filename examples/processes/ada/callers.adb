with Ada.Real_Time;
with Ada.Task_Identification;
with Udp;

package body Callers is
   use Ada.Real_Time;
   use type Ada.Task_Identification.Task_Id;
   use type RP.Byte;

   subtype Task_Number is RP.Byte range 1 .. 8;
   type Name is access String;

   Retry : constant Time_Span := Milliseconds (40);

   Deck_Name          : Name;
   Node_Count         : RP.Byte := 3;
   First_Port, To_Port : Natural := 0;

   type Caller is limited record
      Owner : Ada.Task_Identification.Task_Id := Ada.Task_Identification.Null_Task_Id;
      Stub  : RP.Task_Stub;
      Link  : Udp.Link;
      Node  : RP.Byte := 1;
   end record;

   All_Callers : array (Task_Number) of Caller;

   procedure Must (Result : RP.Status) is
   begin
      if Result /= RP.Done then
         raise Program_Error with "status" & Result'Image;
      end if;
   end Must;

   procedure Configure (Deck : String; Nodes, First, To : Natural) is
   begin
      Deck_Name := new String'(Deck);
      Node_Count := RP.Byte (Nodes);
      First_Port := First;
      To_Port := To;
   end Configure;

   procedure Enrol (Number : RP.Byte) is
      Me : Caller renames All_Callers (Number);
   begin
      Must (RP.Task_Open (Number, Me.Stub));
      Udp.Open (Me.Link, Deck_Name.all, RP.Task_Party + Number, First_Port, To_Port);
      Me.Owner := Ada.Task_Identification.Current_Task;
   end Enrol;

   --  Which task of the deck calls: its number is not a parameter of a protected operation, so it is looked up.
   function Self return Task_Number is
   begin
      for K in Task_Number loop
         if All_Callers (K).Owner = Ada.Task_Identification.Current_Task then
            return K;
         end if;
      end loop;
      raise Program_Error with "a task that is not enrolled";
   end Self;

   --  The value of a reply, or what the operation raised.
   function Value_Of (Reply : RP.Call_Reply) return Value is
     (case Reply.Kind is
         when RP.Value_Reply | RP.Truth_Reply => Reply.Value,
         when RP.Constraint_Reply             => raise Constraint_Error,
         when others                          => raise Program_Error);

   function Call (Object, Kind, Index : RP.Byte; Argument : Value) return Value is
      Me      : Caller renames All_Callers (Self);
      Packet  : RP.Call_Packet;
      Reply   : RP.Call_Reply;
      Arrived : RP.Bytes (1 .. RP.Step_Bytes);
      Last    : Natural;
      Due     : Time;
   begin
      Must (RP.Task_Operation (Me.Stub, Me.Node, Object, Kind, Index, Argument, Packet));
      loop
         Udp.Send (Me.Link, Packet.Text (1 .. Packet.Count));
         Due := Clock + Retry;
         while Clock < Due loop
            Udp.Receive (Me.Link, Arrived, Last);
            if Last > 0
              and then RP.Task_Take (Me.Stub, Arrived (1 .. Last), Reply) = RP.Done
              and then Reply.Kind /= 0  --  else it is the reply to an older call
            then
               return Value_Of (Reply);
            end if;
         end loop;
         Me.Node := Me.Node mod Node_Count + 1;
         Must (RP.Task_Again (Me.Stub, Me.Node, Packet));
      end loop;
   end Call;

end Callers;
