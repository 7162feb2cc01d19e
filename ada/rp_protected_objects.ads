--  What the body of `rp_console bind --ada --local` is made of: the values of protected objects on one machine, and
--  their timing events and interrupts. Its names have more than 16 letters, which no name of a deck has.

with Interfaces;
with System;

package RP_Protected_Objects is

   type Exact_Whole_Number is range -(2 ** 67) .. 2 ** 67;
   --  The values of expressions, which are exact: one has at most 16 operands, of 64 bits each. So no sum is outside of
   --  this range, whatever the arguments are.

   subtype Boolean_Of_An_Object is Boolean;

   Component_Is_True  : constant Boolean_Of_An_Object := True;
   Component_Is_False : constant Boolean_Of_An_Object := False;

   function Numbers_Of_One_Call (Object, Kind, Index : Interfaces.Unsigned_8) return Natural is
     (Natural (Object) * 10_000 + Natural (Kind) * 100 + Natural (Index));
   --  One number for a call, 1_02_03 for the procedure 3 of the object 1.

   type Handler_Of_An_Object is record
      Object, Index : Interfaces.Unsigned_8;
   end record;
   --  A procedure of an object, by its number.

   No_Handler_At_All : constant Handler_Of_An_Object := (0, 0);

   subtype Event_Of_An_Object is Interfaces.Unsigned_8 range 1 .. 8;
   type Handlers_Of_A_Deck is array (Event_Of_An_Object) of Handler_Of_An_Object;

   --  What the clock of a deck, its timing events and its interrupts know.

   type Times_Of_All_Events is array (Event_Of_An_Object) of Interfaces.Integer_64;
   type Events_That_Are_Set is array (Event_Of_An_Object) of Boolean;
   type Occurrences_So_Far is array (Event_Of_An_Object) of Interfaces.Unsigned_32;

   type Events_That_Are_Due is record
      Count  : Natural := 0;
      Events : Handlers_Of_A_Deck := (others => No_Handler_At_All);
   end record;
   --  The handlers of a tick, in the order in which they run.

   protected type Clock_And_Occurrences with Priority => System.Priority'Last is

      procedure Set (Event : Event_Of_An_Object; Time : Interfaces.Integer_64);
      --  Sets the event for this time, in place of one for which it was set.

      procedure Cancel (Event : Event_Of_An_Object; Was_Set : out Boolean);
      --  The event is not set.

      procedure Tick
        (Now      : Interfaces.Unsigned_32;
         Handlers : Handlers_Of_A_Deck;
         Due      : out Events_That_Are_Due);
      --  The clock is at least Now. The events that are set for its time or an earlier one are Due, in the order of
      --  their times, and of equal times in the order of their numbers; they are not set any more.

      procedure Note (Source : Event_Of_An_Object; Occurrence : Interfaces.Unsigned_32; Counts : out Boolean);
      --  An occurrence counts if its number is above all of its source.

      function Time_Of_The_Clock return Interfaces.Integer_64;
      function Is_Set_Now (Event : Event_Of_An_Object) return Boolean;
      function Time_Of (Event : Event_Of_An_Object) return Interfaces.Integer_64;
      --  The time for which an event is set, if it is.

   private
      Clock       : Interfaces.Integer_64 := 0;
      Times       : Times_Of_All_Events := (others => 0);
      Is_Set      : Events_That_Are_Set := (others => False);
      Occurrences : Occurrences_So_Far := (others => 0);
   end Clock_And_Occurrences;

   generic
      with function Call_Of_An_Object
        (Object, Kind, Index : Interfaces.Unsigned_8;
         Argument            : Interfaces.Integer_64) return Interfaces.Integer_64;
      Handlers_Of_Timers, Handlers_Of_Interrupts : Handlers_Of_A_Deck;
   package Timers_And_Interrupts is

      Known_Of_All_Events : Clock_And_Occurrences;

      procedure Call_A_Timing_Event
        (Kind, Index : Interfaces.Unsigned_8;
         Argument    : Interfaces.Integer_64;
         Result      : out Interfaces.Integer_64);
      --  Sets a timing event (kind 4) for the time Argument, or cancels it (kind 5), with whether it was set.

      procedure Tick_Once (Now : Interfaces.Unsigned_32);
      procedure Interrupt_Once (Source : Interfaces.Unsigned_8; Occurrence : Interfaces.Unsigned_32);
      --  Each handler is one protected action. A Constraint_Error of a handler has no effect. Program_Error is raised
      --  where the caller's priority is above the ceiling of the object of a handler.

   end Timers_And_Interrupts;

end RP_Protected_Objects;
