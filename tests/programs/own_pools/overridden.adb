--  A pool type overrides an Allocate that it inherits, and calls that by name: such a call shows no line (RM 3.9.2,
--  13.11).
with Ada.Finalization;        use Ada.Finalization;
with Ada.Text_IO;             use Ada.Text_IO;
with System;                  use System;
with System.Storage_Elements; use System.Storage_Elements;
with Block_Pools;             use Block_Pools;

procedure Overridden is
   type T is new Controlled with record
      N : Integer := 0;
   end record;

   overriding procedure Finalize (X : in out T);

   type Pool is new Block_Pool with record
      Taken : Integer;
   end record;

   overriding procedure Allocate (X : in out Pool; A : out System.Address; S, L : in Storage_Count);

   type Deep is new Pool with null record;

   overriding procedure Allocate (X : in out Deep; A : out System.Address; S, L : in Storage_Count);

   procedure Finalize (X : in out T) is
   begin
      Put_Line ("F" & Integer'Image (X.N));
   end Finalize;

   procedure Allocate (X : in out Pool; A : out System.Address; S, L : in Storage_Count) is
   begin
      X.Taken := X.Taken + 1;
      Allocate (Block_Pool (X), A, S, L);
   end Allocate;

   procedure Allocate (X : in out Deep; A : out System.Address; S, L : in Storage_Count) is
   begin
      Put_Line ("deep");
      Allocate (Pool (X), A, S, L);
   end Allocate;
begin
   declare
      P : Deep (16, 1);

      type Ref is access T with Storage_Pool => P;

      A : Ref;
   begin
      A := new T;
      A.N := P.Taken;
   end;
end Overridden;
