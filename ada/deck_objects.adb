--  The body of the package that `rp_console bind --ada` prints, for replicated objects: what is instantiated with it makes
--  the calls. In its place `bind --ada --local` prints a body for objects on one machine.

package body Deck_Objects is

   function Call_Of_This_Deck
     (Object, Kind, Index : Number_Of_This_Deck;
      Argument            : Value_Of_This_Deck)
      return Value_Of_This_Deck
   is
     (Call_Of_An_Object (Object, Kind, Index, Argument));

   procedure Interrupt_Of_This_Deck
     (Source     : Number_Of_This_Deck;
      Occurrence : Count_Of_This_Deck)
   is
   begin
      Note_An_Interrupt (Source, Occurrence);
   end Interrupt_Of_This_Deck;

   procedure Tick_Of_This_Deck (Now : Count_Of_This_Deck) is
   begin
      Note_A_Tick_Of_Time (Now);
   end Tick_Of_This_Deck;

end Deck_Objects;
