--  A loop that calls a procedure with a formal whose copy goes back.
with Ada.Text_IO; use Ada.Text_IO;
procedure Copied_Call is
   Total : Integer := 0;

   procedure Add (N : Integer; Sum : in out Integer) is
   begin
      Sum := (Sum + N) mod 1_000_003;
   end Add;
begin
   for I in 1 .. TURNS loop
      Add (I, Total);
   end loop;
   Put_Line (Integer'Image (Total));
end Copied_Call;
