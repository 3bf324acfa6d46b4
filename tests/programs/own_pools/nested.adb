--  An Allocate allocates in its own pool, which calls it once more (RM 13.11).
with Ada.Finalization;        use Ada.Finalization;
with Ada.Text_IO;             use Ada.Text_IO;
with System;                  use System;
with System.Storage_Elements; use System.Storage_Elements;
with Block_Pools;             use Block_Pools;

procedure Nested is
   type T is new Controlled with record
      N : Integer := 0;
   end record;

   overriding procedure Finalize (X : in out T);

   type Pool is new Block_Pool with record
      Inside : Boolean;
   end record;

   overriding procedure Allocate (X : in out Pool; A : out System.Address; S, L : in Storage_Count);

   P : Pool (16, 2);

   type Ref is access T with Storage_Pool => P;

   Last, B : Ref;

   procedure Finalize (X : in out T) is
   begin
      Put_Line ("F" & Integer'Image (X.N));
   end Finalize;

   procedure Allocate (X : in out Pool; A : out System.Address; S, L : in Storage_Count) is
   begin
      if not X.Inside then
         X.Inside := True;
         Last := new T;
         Last.N := 1;
      end if;
      Allocate (Block_Pool (X), A, S, L);
   end Allocate;
begin
   B := new T;
   B.N := 2;
end Nested;
