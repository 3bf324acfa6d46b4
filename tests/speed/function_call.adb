--  A loop that calls a function with one parameter.
with Ada.Text_IO; use Ada.Text_IO;
procedure Function_Call is
   Total : Integer := 0;

   function Next (N : Integer) return Integer is
   begin
      return (N + 7) mod 1_000_003;
   end Next;
begin
   for I in 1 .. TURNS loop
      Total := Next (Total);
   end loop;
   Put_Line (Integer'Image (Total));
end Function_Call;
