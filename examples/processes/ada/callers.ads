--  The tasks as callers of replicated objects: each has a stub and a socket of its own, and asks again, also another node, until
--  its reply is there. The calling task is found by its identity, so an operation looks as one of a protected object does.

with Interfaces;
with RP;

package Callers is

   subtype Value is Interfaces.Integer_64;

   procedure Configure (Deck : String; Nodes, First, To : Natural);
   --  Before any call: the file of the deck, how many nodes it has, and the ports (see Udp.Open).

   procedure Enrol (Number : RP.Byte);
   --  The calling task is the task of this number of the deck from now on.

   function Call (Object, Kind, Index : RP.Byte; Argument : Value) return Value;
   --  One call of the replicated object. It returns once the reply is there, whatever that takes, and raises
   --  Constraint_Error or Program_Error where the operation did.

end Callers;
