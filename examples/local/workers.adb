with Ada.Real_Time; use Ada.Real_Time;
with Ada.Text_IO;   use Ada.Text_IO;
with GNAT.OS_Lib;
with Interfaces;    use Interfaces;

package body Workers is

   Level : Integer_64;

   task body Consumer is
      Left : Integer_64;
   begin
      Objects.tank.take (Result => Left);  --  waits until there is something
      Put_Line ("taken, left" & Left'Image);
      delay until Time_Last;
   end Consumer;

   task body Pump is
   begin
      delay until Clock + Milliseconds (20);
      Objects.tank.fill (5, Level);
      delay until Clock + Milliseconds (20);
      Put_Line ("filled to" & Level'Image);
      begin
         Objects.tank.fill (9);
      exception
         when Constraint_Error => Put_Line ("no room, only" & Integer_64'Image (Objects.tank.room));
      end;
      Objects.Timing_Events_Of_This_Deck.cleaning.Set (100);
      Objects.Tick_Of_This_Deck (100);
      Put_Line ("empty, room" & Integer_64'Image (Objects.tank.room));
      GNAT.OS_Lib.OS_Exit (0);
   end Pump;

end Workers;
