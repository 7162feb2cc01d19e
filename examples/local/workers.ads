--  The tasks of tank.deck, with its priorities.

with Objects;

package Workers is

   task Consumer with Priority => Objects.Priorities_Of_Tasks.consumer;
   task Pump with Priority => Objects.Priorities_Of_Tasks.pump;

end Workers;
