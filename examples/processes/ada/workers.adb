with Ada.Exceptions;
with Ada.Real_Time;
with Ada.Text_IO;
with Callers;
with Deck_Objects;
with GNAT.OS_Lib;
with Interfaces.C;
with RP;

package body Workers is
   use Ada.Real_Time;
   use type Callers.Value;

   --  The objects of reg.deck, as `rp_console bind --ada` binds them: each call is one of the task that calls.
   package Objects is new Deck_Objects (Callers.Call);

   protected body Finish is
      procedure Start is
      begin
         Started := True;
      end Start;

      procedure Note is
      begin
         Count := Count + 1;
      end Note;

      function Is_Started return Boolean is (Started);
      function Finished return Natural is (Count);
   end Finish;

   --  The clock that the tasks in C print: their times are compared.
   type Moment is record
      Seconds, Nanoseconds : Interfaces.C.long := 0;
   end record
     with Convention => C;

   function Clock_Gettime (Which : Interfaces.C.int; At_Time : in out Moment) return Interfaces.C.int
     with Import, Convention => C, External_Name => "clock_gettime";

   Monotonic : constant := 1;

   function Nanoseconds return String is
      Now    : Moment;
      Ignore : constant Interfaces.C.int := Clock_Gettime (Monotonic, Now);
   begin
      return Callers.Value'Image (Callers.Value (Now.Seconds) * 1_000_000_000 + Callers.Value (Now.Nanoseconds));
   end Nanoseconds;

   task body Worker is
      Old : Callers.Value;
   begin
      while not Finish.Is_Started loop
         delay until Clock + Milliseconds (5);
      end loop;
      if Number in First_Task .. Last_Task then
         Callers.Enrol (RP.Byte (Number));
         for K in 1 .. Calls_Each loop
            Ada.Text_IO.Put_Line (Number'Image & " call" & K'Image & Nanoseconds);
            Objects.Reg.Swap (Callers.Value (Number) * 1_000_000_000 + Callers.Value (K), Old);
            Ada.Text_IO.Put_Line (Number'Image & " reply" & K'Image & Old'Image & Nanoseconds);
         end loop;
      end if;
      Finish.Note;
      delay until Time_Last;  --  a task of this profile does not end
   exception
      when Fault : others =>
         Ada.Text_IO.Put_Line (Ada.Text_IO.Standard_Error, Ada.Exceptions.Exception_Information (Fault));
         GNAT.OS_Lib.OS_Exit (1);
   end Worker;

end Workers;
