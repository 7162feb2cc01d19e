package body Callers is

   function Call
     (Object, Kind, Index : Interfaces.Unsigned_8;
      Argument            : Interfaces.Integer_64) return Interfaces.Integer_64
   is
     (raise Program_Error with "no node is there");

end Callers;
