--  A loop of five operations: three of arithmetic, a comparison, and a count in every other turn or so.
with Ada.Text_IO; use Ada.Text_IO;
procedure Five_Operations is
   S : Integer := 1;
   T : Integer := 0;
begin
   for I in 1 .. TURNS loop
      S := (S * 3 + I) mod 1_000_003;
      if S > 500_000 then
         T := T + 1;
      end if;
   end loop;
   Put_Line (Integer'Image (S) & Integer'Image (T));
end Five_Operations;
