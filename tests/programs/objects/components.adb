--  Components of objects, read and assigned to: in the object's own operations, in a block, and from a body around
--  (RM 3.8, 4.1.3, 5.2).
with Ada.Finalization; use Ada.Finalization;
with Ada.Text_IO;      use Ada.Text_IO;

procedure Components is
   type A is new Controlled with record
      N : Integer;
      B : Boolean;
   end record;

   overriding procedure Initialize (X : in out A);
   overriding procedure Finalize (X : in out A);

   G : Integer := 0;

   procedure Initialize (X : in out A) is
   begin
      G := G + 1;
      X.N := G;
      Put ("i" & Boolean'Image (X.B));
   end Initialize;

   procedure Finalize (X : in out A) is
   begin
      Put_Line ("f" & Integer'Image (X.N) & Boolean'Image (X.B));
   end Finalize;

   V : A;
begin
   declare
      W, U : A;
   begin
      W.B := W.N = 2;
      V.N := U.N * 10;
   end;
   V.N := V.N + 1;
end Components;
