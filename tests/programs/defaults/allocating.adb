--  A default that is an allocator: each object has one of its own, whose components begin with their defaults in
--  turn (RM 3.8, 4.8).
with Ada.Text_IO; use Ada.Text_IO;

procedure Allocating is
   Count : Integer := 0;

   function Next return Integer;

   type Inner is record
      N : Integer := Next;
   end record;

   type Ref is access Inner;

   type R is record
      P : Ref := new Inner;
      Q : Ref;
   end record;

   type Both is record
      A : R;
      B : Integer := Count;
   end record;

   function Next return Integer is
   begin
      Count := Count + 1;
      return Count;
   end Next;

   X : R;
   Y : Both;
begin
   Put_Line (Integer'Image (X.P.N) & Integer'Image (Y.A.P.N) & Integer'Image (Y.B));
   X.P.N := 9;
   Put_Line (Integer'Image (X.P.N) & Integer'Image (Y.A.P.N) & Boolean'Image (X.Q = null));
end Allocating;
