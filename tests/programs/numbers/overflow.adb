--  A sum beyond Integer'Last raises Constraint_Error, which leaves the main procedure (RM 3.5.4, 4.5.3).
with Ada.Finalization; use Ada.Finalization;
with Ada.Text_IO;      use Ada.Text_IO;

procedure Overflow is
   type A is new Controlled with null record;

   overriding procedure Finalize (X : in out A);

   procedure Finalize (X : in out A) is
   begin
      Put_Line ("a");
   end Finalize;

   V : A;
   N : Integer := Integer'Last;
begin
   N := N + 1;
   Put_Line ("no");
end Overflow;
