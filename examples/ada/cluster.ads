--  Three nodes and the task `writer` in one process, over byte arrays.

with Interfaces;
with RP;

package Cluster is

   subtype Value is Interfaces.Integer_64;
   subtype Node_Number is RP.Byte range 1 .. 3;

   procedure Open;
   --  Reads a deck on standard input, and opens three nodes of it and its first task.

   function Call (Object, Kind, Index : RP.Byte; Argument : Value) return Value;
   --  The task's call of an operation, through node 1, which leads: it returns once its reply is there.
   --  It raises Constraint_Error or Program_Error where the operation did.

   procedure Restart (Number : Node_Number);
   --  The node stops, and starts again from the bytes of its device. It prints how many records and torn
   --  bytes it found.

   procedure Show;
   --  Prints what each node has applied, and the state of its objects.

   procedure Close;
   --  Gives the nodes and the task back.

end Cluster;
