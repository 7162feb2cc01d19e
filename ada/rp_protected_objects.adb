package body RP_Protected_Objects is
   use type Interfaces.Integer_64;
   use type Interfaces.Unsigned_8;
   use type Interfaces.Unsigned_32;

   protected body Clock_And_Occurrences is

      procedure Set (Event : Event_Of_An_Object; Time : Interfaces.Integer_64) is
      begin
         Times (Event) := Time;
         Is_Set (Event) := True;
      end Set;

      procedure Cancel (Event : Event_Of_An_Object; Was_Set : out Boolean) is
      begin
         Was_Set := Is_Set (Event);
         Is_Set (Event) := False;
      end Cancel;

      procedure Tick
        (Now      : Interfaces.Unsigned_32;
         Handlers : Handlers_Of_A_Deck;
         Due      : out Events_That_Are_Due)
      is
         Next  : Event_Of_An_Object;
         Found : Boolean;
      begin
         Due := (Count => 0, Events => (others => No_Handler_At_All));
         Clock := Interfaces.Integer_64'Max (Clock, Interfaces.Integer_64 (Now));
         loop
            Found := False;
            Next := 1;
            for Event in Event_Of_An_Object loop
               if Is_Set (Event)
                 and then Times (Event) <= Clock
                 and then (not Found or else Times (Event) < Times (Next))
               then
                  Found := True;
                  Next := Event;
               end if;
            end loop;
            exit when not Found;
            Is_Set (Next) := False;
            Due.Count := Due.Count + 1;
            Due.Events (Event_Of_An_Object (Due.Count)) := Handlers (Next);
         end loop;
      end Tick;

      procedure Note (Source : Event_Of_An_Object; Occurrence : Interfaces.Unsigned_32; Counts : out Boolean) is
      begin
         Counts := Occurrence > Occurrences (Source);
         if Counts then
            Occurrences (Source) := Occurrence;
         end if;
      end Note;

      function Time_Of_The_Clock return Interfaces.Integer_64 is (Clock);
      function Is_Set_Now (Event : Event_Of_An_Object) return Boolean is (Is_Set (Event));
      function Time_Of (Event : Event_Of_An_Object) return Interfaces.Integer_64 is (Times (Event));

   end Clock_And_Occurrences;

   package body Timers_And_Interrupts is

      A_Procedure  : constant := 2;
      Set_Timer    : constant := 4;

      procedure Run (Handler : Handler_Of_An_Object) is
         Ignored : Interfaces.Integer_64;
      begin
         Ignored := Call_Of_An_Object (Handler.Object, A_Procedure, Handler.Index, 0);
      exception
         when Constraint_Error => null;  --  section C.3, D.15
      end Run;

      procedure Call_A_Timing_Event
        (Kind, Index : Interfaces.Unsigned_8;
         Argument    : Interfaces.Integer_64;
         Result      : out Interfaces.Integer_64)
      is
         Was_Set : Boolean;
      begin
         Result := 0;
         if Kind = Set_Timer then
            Known_Of_All_Events.Set (Index, Argument);
         else
            Known_Of_All_Events.Cancel (Index, Was_Set);
            Result := Boolean'Pos (Was_Set);
         end if;
      end Call_A_Timing_Event;

      procedure Tick_Once (Now : Interfaces.Unsigned_32) is
         Due : Events_That_Are_Due;
      begin
         Known_Of_All_Events.Tick (Now, Handlers_Of_Timers, Due);
         for Place in 1 .. Due.Count loop
            Run (Due.Events (Event_Of_An_Object (Place)));
         end loop;
      end Tick_Once;

      procedure Interrupt_Once (Source : Interfaces.Unsigned_8; Occurrence : Interfaces.Unsigned_32) is
         Counts : Boolean;
      begin
         Known_Of_All_Events.Note (Source, Occurrence, Counts);
         if Counts then
            Run (Handlers_Of_Interrupts (Source));
         end if;
      end Interrupt_Once;

   end Timers_And_Interrupts;

end RP_Protected_Objects;
