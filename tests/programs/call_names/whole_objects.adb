--  A whole object that a call designates: passed by reference, assigned to, and copied into a declared one (RM 3.3.1,
--  5.2, 6.2, 7.6, 7.6.1).
with Ada.Finalization; use Ada.Finalization;
with Ada.Text_IO;      use Ada.Text_IO;

procedure Whole_Objects is
   type T is new Controlled with record
      N : Integer := 0;
   end record;

   overriding procedure Adjust (X : in out T);
   overriding procedure Finalize (X : in out T);

   type Ref is access T;

   A, B : Ref;

   procedure Adjust (X : in out T) is
   begin
      X.N := X.N + 10;
   end Adjust;

   procedure Finalize (X : in out T) is
   begin
      Put_Line ("F" & Integer'Image (X.N));
   end Finalize;

   procedure Set (X : in out T; N : Integer) is
   begin
      X.N := N;
   end Set;

   function Find (K : Integer) return Ref is
   begin
      if K = 1 then
         return A;
      end if;
      return B;
   end Find;
begin
   A := new T;
   B := new T;
   Set (Find (1).all, 1);
   Set (Find (2).all, 2);
   Find (1).all := Find (2).all;
   declare
      C : T := Find (1).all;
   begin
      Put_Line (Integer'Image (A.N) & Integer'Image (B.N) & Integer'Image (C.N));
   end;
end Whole_Objects;
