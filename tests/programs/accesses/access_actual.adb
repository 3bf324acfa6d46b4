--  `X'Access` is an actual, of `in` formals and of an operator beside one; an aliased variable that is given a value is
--  adjusted, and has its own (RM 3.3.1, 3.10.2, 6.4.1).
with Ada.Finalization; use Ada.Finalization;
with Ada.Text_IO;      use Ada.Text_IO;

procedure Access_Actual is
   type T is new Controlled with record
      N : Integer := 1;
   end record;

   overriding procedure Adjust (X : in out T);
   overriding procedure Finalize (X : in out T);

   type G is access all T;

   function Same (X, Y : G) return Boolean is
   begin
      return X = Y;
   end Same;

   procedure Add (X : in G; N : in Integer) is
   begin
      X.N := X.N + N;
   end Add;

   procedure Adjust (X : in out T) is
   begin
      X.N := X.N + 10;
   end Adjust;

   procedure Finalize (X : in out T) is
   begin
      Put_Line ("F" & Integer'Image (X.N));
   end Finalize;

   A : aliased T;
   B : aliased T := A;
begin
   Add (A'Access, 1);
   Add (B'Access, 2);
   Put_Line (Integer'Image (A.N) & Integer'Image (B.N));
   Put_Line (Boolean'Image (Same (A'Access, A'Access)) & Boolean'Image (Same (A'Access, B'Access)));
end Access_Actual;
