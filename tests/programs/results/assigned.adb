--  The target of an assignment is found before the function is called; where that frees it, the run stops (RM 5.2, 13.11.2).
with Ada.Text_IO; use Ada.Text_IO;
with Ada.Unchecked_Deallocation;

procedure Assigned is
   type R is record
      A : Integer := 1;
   end record;

   type Ref is access R;

   procedure Free is new Ada.Unchecked_Deallocation (R, Ref);

   X : Ref := new R;
   Y : Ref := X;

   function Moved (N : Integer) return R is
      V : R;
   begin
      V.A := N;
      X := new R;
      return V;
   end Moved;

   function Freed (N : Integer) return R is
      V : R;
   begin
      V.A := N;
      Free (X);
      return V;
   end Freed;
begin
   X.all := Moved (2);
   Put_Line (Integer'Image (Y.all.A) & Integer'Image (X.all.A));
   Y.all := Freed (3);
   Put_Line (Integer'Image (Y.all.A) & Boolean'Image (X = null));
   X := Y;
   X.all := Freed (4);
   Put_Line ("after");
end Assigned;
