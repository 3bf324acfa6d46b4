--  An Allocate gives an address of its pool when that is closed: a member of an older collection is finalized then,
--  and allocates (RM 13.11.2).
with Ada.Finalization;        use Ada.Finalization;
with Ada.Text_IO;             use Ada.Text_IO;
with System;                  use System;
with System.Storage_Elements; use System.Storage_Elements;
with Block_Pools;             use Block_Pools;

procedure Closed is
   type R is record
      N : Integer;
   end record;

   type Pool is new Block_Pool with record
      Spare : System.Address;
   end record;

   overriding procedure Allocate (X : in out Pool; A : out System.Address; S, L : in Storage_Count);

   procedure Allocate (X : in out Pool; A : out System.Address; S, L : in Storage_Count) is
   begin
      A := X.Spare;
   end Allocate;
begin
   declare
      type U is new Controlled with null record;

      overriding procedure Finalize (X : in out U);

      type Old is access U;

      V : Old;
      P : Pool (8, 2);

      type Ref is access R with Storage_Pool => P;

      B : System.Address;

      procedure Finalize (X : in out U) is
         W : Ref;
      begin
         W := new R;
         Put_Line ("made");
      end Finalize;
   begin
      Allocate (Block_Pool (P), B, 8, 8);
      P.Spare := B;
      V := new U;
   end;
end Closed;
