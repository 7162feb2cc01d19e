--  The tasks of the program: each calls the replicated object again and again, and prints each call and its reply.

package Workers is

   First_Task, Last_Task : Natural := 0;
   Calls_Each            : Natural := 0;

   protected Finish with Priority => 20 is
      procedure Start;
      procedure Note;
      function Is_Started return Boolean;
      function Finished return Natural;
   private
      Started : Boolean := False;
      Count   : Natural := 0;
   end Finish;

   task type Worker (Number : Positive) with Priority => 10;

   W1 : Worker (1);
   W2 : Worker (2);
   W3 : Worker (3);
   W4 : Worker (4);

   Worker_Count : constant := 4;

end Workers;
