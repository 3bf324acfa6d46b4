--  A loop that calls a procedure that declares one scalar.
with Ada.Text_IO; use Ada.Text_IO;
procedure Procedure_Call is
   Total : Integer := 0;

   procedure Add (N : Integer) is
      Sum : Integer := Total + N;
   begin
      Total := Sum mod 1_000_003;
   end Add;
begin
   for I in 1 .. TURNS loop
      Add (I);
   end loop;
   Put_Line (Integer'Image (Total));
end Procedure_Call;
