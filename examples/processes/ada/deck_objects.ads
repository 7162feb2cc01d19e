--  The protected objects of a deck: do not edit. Written by `rp_console bind
--  --ada`. The body for replicated objects is ada/deck_objects.adb, and that
--  for objects on one machine is what `bind --ada --local` prints.
--  Call_Of_An_Object makes a call and waits for its reply: it returns its
--  value, or raises what the operation raised.

with Interfaces;
with RP_Calls;

generic
   with function Call_Of_An_Object
     (Object, Kind, Index : Interfaces.Unsigned_8;
      Argument            : Interfaces.Integer_64)
      return Interfaces.Integer_64;
   with procedure Note_An_Interrupt
     (Source     : Interfaces.Unsigned_8;
      Occurrence : Interfaces.Unsigned_32) is null;
   with procedure Note_A_Tick_Of_Time
     (Now : Interfaces.Unsigned_32) is null;
package Deck_Objects is

   subtype Number_Of_This_Deck is Interfaces.Unsigned_8;
   subtype Value_Of_This_Deck is Interfaces.Integer_64;
   subtype Count_Of_This_Deck is Interfaces.Unsigned_32;

   function Call_Of_This_Deck
     (Object, Kind, Index : Number_Of_This_Deck;
      Argument            : Value_Of_This_Deck)
      return Value_Of_This_Deck;

   procedure Interrupt_Of_This_Deck
     (Source     : Number_Of_This_Deck;
      Occurrence : Count_Of_This_Deck);

   procedure Tick_Of_This_Deck (Now : Count_Of_This_Deck);

   package Calls_Of_This_Deck is new RP_Calls (Call_Of_This_Deck);

   package Tasks_Of_This_Deck is
      a : constant := 1;
      b : constant := 2;
      c : constant := 3;
      d : constant := 4;
   end Tasks_Of_This_Deck;

   package Priorities_Of_Tasks is
      a : constant := 5;
      b : constant := 5;
      c : constant := 5;
      d : constant := 5;
   end Priorities_Of_Tasks;

   package Ceilings_Of_Objects is
      reg : constant := 10;
   end Ceilings_Of_Objects;

   package Interrupts_Of_This_Deck is
   end Interrupts_Of_This_Deck;

   package Timing_Events_Of_This_Deck is
   end Timing_Events_Of_This_Deck;

   package reg is
      function calls is new Calls_Of_This_Deck.Value_Function
        (Object => 1, Index => 1);
      procedure swap is new Calls_Of_This_Deck.A_Procedure
        (Object => 1, Index => 1);
      procedure swap is new Calls_Of_This_Deck.A_Procedure_Alone
        (Object => 1, Index => 1);
   end reg;

end Deck_Objects;
