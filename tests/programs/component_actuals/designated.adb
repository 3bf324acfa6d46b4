--  Components of what access values designate, and numbers that they designate, as actuals: they are found once, before the call (RM 6.4.1).
with Ada.Text_IO; use Ada.Text_IO;

procedure Designated is
   type R is record
      N : Integer := 1;
   end record;

   type Ref is access R;
   type Number is access Integer;

   X : Ref := new R;
   Y : Ref := X;
   K : Number := new Integer'(5);

   function Found return Ref is
   begin
      Put_Line ("called");
      return X;
   end Found;

   function Told (N : Integer) return Integer is
   begin
      Put_Line ("told");
      return N;
   end Told;

   procedure Add (N : in out Integer) is
   begin
      N := N + 1;
   end Add;

   procedure Both (A : in out Integer; B : in out Integer) is
   begin
      A := A + 10;
      B := B + 20;
   end Both;

   procedure Move (N : in out Integer) is
   begin
      X := new R;
      N := 9;
   end Move;

   procedure First (A : in Integer; B : in out Integer) is
   begin
      B := A;
   end First;

   procedure Last (A : in out Integer; B : in Integer) is
   begin
      A := B;
   end Last;
begin
   Add (X.all.N);
   Put_Line (Integer'Image (X.all.N));
   Add (Found.all.N);
   Put_Line (Integer'Image (X.all.N));
   Add (K.all);
   Put_Line (Integer'Image (K.all));
   Both (X.all.N, Y.all.N);
   Put_Line (Integer'Image (X.all.N));
   Move (X.all.N);
   Put_Line (Integer'Image (Y.all.N) & Integer'Image (X.all.N));
   X := null;
   begin
      First (Told (1), X.all.N);
   exception
      when Constraint_Error =>
         Put_Line ("null");
   end;
   begin
      Last (X.all.N, Told (1));
   exception
      when Constraint_Error =>
         Put_Line ("null");
   end;
end Designated;
