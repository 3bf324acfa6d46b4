--  A loop of arithmetic on one variable.
with Ada.Text_IO; use Ada.Text_IO;
procedure Sum is
   Total : Integer := 0;
begin
   for I in 1 .. TURNS loop
      Total := (Total + I) mod 1_000_003;
   end loop;
   Put_Line (Integer'Image (Total));
end Sum;
