--  A whole object behind a dereference: passed by reference, assigned to, and copied into a declared one (RM 3.3.1,
--  5.2, 6.2, 7.6).
with Ada.Finalization; use Ada.Finalization;
with Ada.Text_IO;      use Ada.Text_IO;

procedure Whole_Objects is
   type T is new Controlled with record
      N : Integer := 0;
   end record;

   overriding procedure Adjust (X : in out T);
   overriding procedure Finalize (X : in out T);

   type Ref is access T;

   A, B : Ref;

   procedure Adjust (X : in out T) is
   begin
      X.N := X.N + 10;
   end Adjust;

   procedure Finalize (X : in out T) is
   begin
      Put_Line ("F" & Integer'Image (X.N));
   end Finalize;

   procedure Set (X : in out T; N : Integer) is
   begin
      X.N := N;
   end Set;
begin
   A := new T;
   B := new T;
   Set (A.all, 1);
   Set (B.all, 2);
   A.all := B.all;
   declare
      C : T := A.all;
   begin
      Put_Line (Integer'Image (A.N) & Integer'Image (B.N) & Integer'Image (C.N));
   end;
end Whole_Objects;
