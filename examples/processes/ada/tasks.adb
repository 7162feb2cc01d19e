--  Tasks of reg.deck as one Ravenscar program, beside those of c/task.c.
--
--     tasks DECK FIRST LAST NODES CALLS PORT [TO]

with Ada.Command_Line;
with Ada.Real_Time;
with Callers;
with GNAT.OS_Lib;
with Workers;

procedure Tasks with Priority => 5 is
   use Ada.Command_Line;
   use Ada.Real_Time;

   function Number (Place : Positive) return Natural is (Natural'Value (Argument (Place)));
begin
   Callers.Configure (Argument (1), Number (4), Number (6), Number (if Argument_Count > 6 then 7 else 6));
   Workers.First_Task := Number (2);
   Workers.Last_Task := Number (3);
   Workers.Calls_Each := Number (5);
   Workers.Finish.Start;
   while Workers.Finish.Finished < Workers.Worker_Count loop
      delay until Clock + Milliseconds (10);
   end loop;
   GNAT.OS_Lib.OS_Exit (0);
end Tasks;
