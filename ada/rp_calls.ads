--  What the packages of `rp_console bind --ada` are made of: subprograms that are one call of an operation of a
--  replicated object each. Every argument and every result is a whole number of 64 bits, as in a deck; an argument
--  that is left out is 0.

with Interfaces;

generic
   with function Call
     (Object, Kind, Index : Interfaces.Unsigned_8;
      Argument            : Interfaces.Integer_64) return Interfaces.Integer_64;
   --  Makes a call of the operation of this kind (1 a function, 2 a procedure, 3 an entry, 4 to set a timing
   --  event, 5 to cancel it) and index of an object, and waits for its reply. It returns the reply's value, a Boolean as 0 or 1, and raises Constraint_Error or
   --  Program_Error where the operation did.

package RP_Calls is
   pragma Preelaborate;

   subtype Number is Interfaces.Unsigned_8;
   subtype Value is Interfaces.Integer_64;

   generic
      Object, Index : Number;
   function Value_Function (Argument : Value := 0) return Value;

   generic
      Object, Index : Number;
   function Truth_Function (Argument : Value := 0) return Boolean;

   --  A procedure or an entry, which returns once it is answered, with its result.

   generic
      Object, Index : Number;
   procedure A_Procedure (Argument : Value := 0; Result : out Value);

   generic
      Object, Index : Number;
   procedure An_Entry (Argument : Value := 0; Result : out Value);

   --  The same, where the result is of no use.

   generic
      Object, Index : Number;
   procedure A_Procedure_Alone (Argument : Value := 0);

   generic
      Object, Index : Number;
   procedure An_Entry_Alone (Argument : Value := 0);

   --  A timing event, by the object of its handler and its own number: it is set for a time, in place of one for which
   --  it was set, or cancelled, which returns whether it was set.

   generic
      Object, Index : Number;
   procedure Set_A_Timing_Event (At_Time : Value);

   generic
      Object, Index : Number;
   function Cancel_A_Timing_Event return Boolean;

end RP_Calls;
