--  The main procedure calls itself: each execution is a master of its own, with variables of its own. The limit ends it,
--  with --steps 40 (RM 6.1, 6.4).
with Ada.Finalization; use Ada.Finalization;
with Ada.Text_IO;      use Ada.Text_IO;

procedure Main_Called_Again is
   type A is new Controlled with null record;

   overriding procedure Finalize (X : in out A);

   procedure Finalize (X : in out A) is
   begin
      Put_Line ("no");
   end Finalize;

   V : A;
   N : Integer;
begin
   N := N + 1;
   Put_Line (Integer'Image (N));
   Main_Called_Again;
end Main_Called_Again;
