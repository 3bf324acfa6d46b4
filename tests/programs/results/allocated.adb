--  An object that is allocated takes the record that a function gives: the value comes first, then the call of Allocate
--  (RM 4.8, 13.11).
with Ada.Text_IO;             use Ada.Text_IO;
with System;                  use System;
with System.Storage_Elements; use System.Storage_Elements;
with Block_Pools;             use Block_Pools;

procedure Allocated is
   type R is record
      A : Integer;
      B : Integer;
   end record;

   type Ref is access R;

   type Pool is new Block_Pool with null record;

   overriding procedure Allocate (X : in out Pool; A : out System.Address; S, L : in Storage_Count);

   procedure Allocate (X : in out Pool; A : out System.Address; S, L : in Storage_Count) is
   begin
      Put_Line ("asked");
      Allocate (Block_Pool (X), A, S, L);
   end Allocate;

   function F (N : Integer) return R is
      V : R;
   begin
      Put_Line ("called");
      V.A := N;
      V.B := 2 * N;
      return V;
   end F;
begin
   declare
      P : Pool (16, 1);
      Q : Block_Pool (16, 1);

      type Mine is access R with Storage_Pool => P;
      type Its is access R with Storage_Pool => Q;

      X : Ref := new R'(F (1));
      Y : Mine;
      Z : Its;
   begin
      Y := new R'(F (2));
      Z := new R'(F (3));
      Put_Line (Integer'Image (X.all.A) & Integer'Image (X.all.B));
      Put_Line (Integer'Image (Y.all.A) & Integer'Image (Y.all.B));
      Put_Line (Integer'Image (Z.all.A) & Integer'Image (Z.all.B));
      begin
         Y := new R'(F (4));
      exception
         when Storage_Error =>
            Put_Line ("full" & Integer'Image (Y.all.A));
      end;
   end;
end Allocated;
