with Ada.Real_Time;
with Workers;
pragma Unreferenced (Workers);

procedure Main with Priority => 1 is
begin
   delay until Ada.Real_Time.Time_Last;  --  a main procedure of this profile does not end
end Main;
