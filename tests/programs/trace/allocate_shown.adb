--  A pool with an Allocate and a Deallocate of its own is asked for eight storage units, and gets them back (RM 13.11, 13.11.2).
with Ada.Unchecked_Deallocation;
with System;
with System.Storage_Elements; use System.Storage_Elements;
with Block_Pools;             use Block_Pools;

procedure Allocate_Shown is
   type Own is new Block_Pool with null record;

   overriding procedure Allocate (P : in out Own; A : out System.Address; S, L : in Storage_Count);
   overriding procedure Deallocate (P : in out Own; A : in System.Address; S, L : in Storage_Count);

   procedure Allocate (P : in out Own; A : out System.Address; S, L : in Storage_Count) is
   begin
      Allocate (Block_Pool (P), A, S, L);
   end Allocate;

   procedure Deallocate (P : in out Own; A : in System.Address; S, L : in Storage_Count) is
   begin
      Deallocate (Block_Pool (P), A, S, L);
   end Deallocate;
begin
   declare
      P : Own (8, 1);

      type Link is access Integer with Storage_Pool => P;

      procedure Free is new Ada.Unchecked_Deallocation (Integer, Link);

      V : Link := new Integer;
   begin
      Free (V);
   end;
end Allocate_Shown;
