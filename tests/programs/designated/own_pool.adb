--  An allocator of a number with a value calls the pool's own Allocate behind the evaluation of the value, and Unchecked_Deallocation its
--  Deallocate; both are told of eight storage units (RM 4.8, 13.11, 13.11.2).
with Ada.Text_IO;             use Ada.Text_IO;
with Ada.Unchecked_Deallocation;
with System;
with System.Storage_Elements; use System.Storage_Elements;
with Block_Pools;             use Block_Pools;

procedure Own_Pool is
   type Pool is new Block_Pool with null record;

   overriding procedure Allocate (X : in out Pool; A : out System.Address; S, L : in Storage_Count);
   overriding procedure Deallocate (X : in out Pool; A : in System.Address; S, L : in Storage_Count);

   procedure Allocate (X : in out Pool; A : out System.Address; S, L : in Storage_Count) is
   begin
      Put_Line ("taken");
      Allocate (Block_Pool (X), A, S, L);
   end Allocate;

   procedure Deallocate (X : in out Pool; A : in System.Address; S, L : in Storage_Count) is
   begin
      Put_Line ("given back");
      Deallocate (Block_Pool (X), A, S, L);
   end Deallocate;

   function Told (K : Integer) return Integer is
   begin
      Put_Line ("told" & Integer'Image (K));
      return K;
   end Told;
begin
   declare
      P : Pool (8, 1);

      type Ref is access Integer with Storage_Pool => P;

      procedure Free is new Ada.Unchecked_Deallocation (Integer, Ref);

      R : Ref;
   begin
      R := new Integer'(Told (3));
      Put_Line (Integer'Image (R.all));
      Free (R);
      R := new Integer;
      Put_Line (Integer'Image (R.all));
   end;
end Own_Pool;
