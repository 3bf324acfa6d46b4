--  Calls whose copies go back stand in loops, whose bounds wait meanwhile (RM 5.5, 6.4.1).
with Ada.Text_IO; use Ada.Text_IO;

procedure In_Loops is
   N : Integer := 0;

   procedure Add (K : Integer; Sum : in out Integer; J : Integer) is
   begin
      Sum := Sum + K * J;
   end Add;
begin
   for I in 1 .. 3 loop
      for J in reverse 1 .. 2 loop
         Add (I, N, J);
         Put (Integer'Image (N));
      end loop;
   end loop;
   New_Line;
end In_Loops;
