--  Runs the deck on standard input by the library, and prints its answer: what `rp_console script`
--  prints, and with the word `--trace` what `script --trace` prints. The first call has no room for an
--  answer and returns the length that it needs; the second has. A bad deck's line goes to standard
--  error. The status is the library's.

with Ada.Command_Line;
with Ada.Streams;
with Ada.Text_IO;
with Ada.Text_IO.Text_Streams;
with Interfaces.C;
with RP;

procedure Run_Deck is
   use Ada.Streams;
   use Ada.Text_IO;
   use type Interfaces.C.size_t;
   use type RP.Status;

   Most_Bytes : constant := 1_048_576;

   Traced  : constant Interfaces.C.C_bool :=
     Interfaces.C.C_bool
       (Ada.Command_Line.Argument_Count > 0
        and then Ada.Command_Line.Argument (1) = "--trace");
   Deck    : Stream_Element_Array (1 .. Most_Bytes + 1);
   Last    : Stream_Element_Offset;
   Nothing : Stream_Element := 0;
   Used    : Interfaces.C.size_t := 0;
   Result  : RP.Status;
begin
   Read (Text_Streams.Stream (Standard_Input).all, Deck, Last);
   Result := RP.Run_Deck
     (Deck'Address, Interfaces.C.size_t (Last), Traced, Nothing'Address, 0, Used);
   if Result = RP.Short_Answer then
      declare
         Answer : Stream_Element_Array (1 .. Stream_Element_Offset (Used));
      begin
         Result := RP.Run_Deck
           (Deck'Address, Interfaces.C.size_t (Last), Traced, Answer'Address, Used, Used);
         Write
           (Text_Streams.Stream
              (if Result = RP.Done then Standard_Output else Standard_Error).all,
            Answer);
      end;
   end if;
   Ada.Command_Line.Set_Exit_Status (Ada.Command_Line.Exit_Status (Result));
end Run_Deck;
