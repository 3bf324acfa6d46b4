--  An exit statement with a condition leaves a loop (RM 5.7).
with Ada.Text_IO; use Ada.Text_IO;

procedure Exit_When is
   N : Integer := 0;
begin
   loop
      exit when N = 3;
      N := N + 1;
   end loop;
   Put_Line (Integer'Image (N));
end Exit_When;
