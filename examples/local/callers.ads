--  What would make the calls of replicated objects: examples/processes/ada/callers.adb does. On one machine it is not called.

with Interfaces;

package Callers is

   function Call
     (Object, Kind, Index : Interfaces.Unsigned_8;
      Argument            : Interfaces.Integer_64) return Interfaces.Integer_64;

end Callers;
