--  A name begins with the call of a function that gives a record: a component of it, one of a component, and what an access
--  value among them designates (RM 4.1, 4.1.3).
with Ada.Text_IO; use Ada.Text_IO;

procedure Prefix is
   type Inner is record
      B : Integer;
   end record;

   type Ref is access Inner;

   type R is record
      A  : Integer;
      Part : Inner;
      P  : Ref;
   end record;

   Last : Ref;

   function F (N : Integer) return R is
      V : R;
   begin
      V.A := N;
      V.Part.B := N + 1;
      V.P := Last;
      return V;
   end F;

   function G (X : Inner) return Integer is
   begin
      return 2 * X.B;
   end G;

   procedure Add (N : in out Integer) is
   begin
      N := N + 5;
   end Add;
begin
   Last := new Inner;
   Last.all.B := 7;
   Put_Line (Integer'Image (F (1).A) & Integer'Image (F (1).Part.B) & Integer'Image (F (1).P.all.B));
   Put_Line (Integer'Image (G (F (3).Part)) & Integer'Image (G (F (3).P.all)));
   F (1).P.all.B := 20;
   Add (F (1).P.all.B);
   Put_Line (Integer'Image (Last.all.B));
   F (1).P.all := F (6).Part;
   Put_Line (Integer'Image (Last.all.B) & Integer'Image (F (F (2).Part.B).A));
   Last := null;
   begin
      Put_Line (Integer'Image (F (1).P.all.B));
   exception
      when Constraint_Error =>
         Put_Line ("null");
   end;
end Prefix;
