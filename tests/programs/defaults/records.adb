--  Defaults with functions that give records: a component of the value, and the value as an actual. It waits while what
--  the function declares is finalized, inside of the creation of the object; an exception drops it (RM 3.8, 6.4, 6.5,
--  7.6.1, 11.4).
with Ada.Finalization; use Ada.Finalization;
with Ada.Text_IO;      use Ada.Text_IO;

procedure Records is
   Count : Integer := 0;

   type Pair is record
      A : Integer;
      B : Integer;
   end record;

   type Guard is new Limited_Controlled with record
      N : Integer := 0;
   end record;

   overriding procedure Finalize (X : in out Guard);

   function Made (N : Integer) return Pair;

   function Broken (N : Integer) return Pair;

   function Sum (P : Pair) return Integer;

   type T is record
      N : Integer := Made (1).B + Count;
   end record;

   type U is new Controlled with record
      M : Integer := Sum (Made (3));
   end record;

   type W is record
      N : Integer := Sum (Made (0)) + Broken (4).A;
   end record;

   overriding procedure Initialize (X : in out U);
   overriding procedure Finalize (X : in out U);

   procedure Finalize (X : in out Guard) is
   begin
      Put_Line ("guard" & Integer'Image (X.N));
      Count := Count + 10;
   end Finalize;

   procedure Initialize (X : in out U) is
   begin
      Put_Line ("i" & Integer'Image (X.M));
   end Initialize;

   procedure Finalize (X : in out U) is
   begin
      Put_Line ("f" & Integer'Image (X.M));
   end Finalize;

   function Made (N : Integer) return Pair is
      G : Guard;
      V : Pair;
   begin
      G.N := N;
      V.A := N + Count;
      V.B := 2 * N;
      return V;
   end Made;

   function Broken (N : Integer) return Pair is
      G : Guard;
      V : Pair;
   begin
      G.N := N;
      V := Made (N + 1);
      raise Constraint_Error;
      return V;
   end Broken;

   function Sum (P : Pair) return Integer is
   begin
      return P.A + P.B;
   end Sum;
begin
   declare
      X : T;
      Y : U;
   begin
      Put_Line (Integer'Image (X.N) & Integer'Image (Y.M));
   end;
   declare
      Z : W;
   begin
      Put_Line ("not reached");
   end;
exception
   when Constraint_Error =>
      Put_Line ("handled" & Integer'Image (Count));
end Records;
