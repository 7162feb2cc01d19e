with RP;

package body Tank is

   --  The numbers of the object and of its procedure, in the order of the deck.
   Object         : constant := 1;
   Fill_Procedure : constant := 1;

   procedure Fill (Amount : Value; Level : out Value) is
   begin
      Level := Cluster.Call (Object, RP.A_Procedure, Fill_Procedure, Amount);
   end Fill;

end Tank;
