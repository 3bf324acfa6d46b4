--  Records without components: their objects take numbers, are given values and assigned, and nothing is shown (RM 3.8,
--  5.2).
with Ada.Finalization; use Ada.Finalization;
with Ada.Text_IO;      use Ada.Text_IO;

procedure Null_Records is
   type N is null record;

   type M is record
      null;
   end record;

   type T is new Controlled with null record;

   overriding procedure Finalize (X : in out T);

   procedure Finalize (X : in out T) is
   begin
      Put_Line ("F");
   end Finalize;

   A, B : N;
   C    : constant N := A;
   D    : M;
   V    : T;
begin
   A := B;
   B := B;
   B := C;
   declare
      E : M := D;
      W : T;
   begin
      D := E;
   end;
   Put_Line ("assigned");
end Null_Records;
