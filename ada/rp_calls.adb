package body RP_Calls is
   use type Value;

   --  The kinds of operation, as in RP.

   Of_Function  : constant Number := 1;
   Of_Procedure : constant Number := 2;
   Of_Entry     : constant Number := 3;
   Of_Setting   : constant Number := 4;
   Of_Cancel    : constant Number := 5;

   function Value_Function (Argument : Value := 0) return Value is
     (Call (Object, Of_Function, Index, Argument));

   function Truth_Function (Argument : Value := 0) return Boolean is
     (Call (Object, Of_Function, Index, Argument) /= 0);

   procedure A_Procedure (Argument : Value := 0; Result : out Value) is
   begin
      Result := Call (Object, Of_Procedure, Index, Argument);
   end A_Procedure;

   procedure An_Entry (Argument : Value := 0; Result : out Value) is
   begin
      Result := Call (Object, Of_Entry, Index, Argument);
   end An_Entry;

   procedure A_Procedure_Alone (Argument : Value := 0) is
      Ignored : constant Value := Call (Object, Of_Procedure, Index, Argument);
      pragma Unreferenced (Ignored);
   begin
      null;
   end A_Procedure_Alone;

   procedure An_Entry_Alone (Argument : Value := 0) is
      Ignored : constant Value := Call (Object, Of_Entry, Index, Argument);
      pragma Unreferenced (Ignored);
   begin
      null;
   end An_Entry_Alone;

   procedure Set_A_Timing_Event (At_Time : Value) is
      Ignored : constant Value := Call (Object, Of_Setting, Index, At_Time);
      pragma Unreferenced (Ignored);
   begin
      null;
   end Set_A_Timing_Event;

   function Cancel_A_Timing_Event return Boolean is
     (Call (Object, Of_Cancel, Index, 0) /= 0);

end RP_Calls;
