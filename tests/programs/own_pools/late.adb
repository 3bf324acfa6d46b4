--  An object is allocated where the finalization of its collection has started: Program_Error, and Allocate is not
--  called (RM 4.8, 13.11).
with Ada.Finalization;        use Ada.Finalization;
with Ada.Text_IO;             use Ada.Text_IO;
with System;                  use System;
with System.Storage_Elements; use System.Storage_Elements;
with Block_Pools;             use Block_Pools;

procedure Late is
   type Pool is new Block_Pool with null record;

   overriding procedure Allocate (X : in out Pool; A : out System.Address; S, L : in Storage_Count);

   procedure Allocate (X : in out Pool; A : out System.Address; S, L : in Storage_Count) is
   begin
      Allocate (Block_Pool (X), A, S, L);
   end Allocate;
begin
   declare
      P : Pool (8, 2);

      type T;
      type Ref is access T with Storage_Pool => P;
      type T is new Controlled with null record;

      overriding procedure Finalize (X : in out T);

      procedure Finalize (X : in out T) is
         V : Ref;
      begin
         V := new T;
         Put_Line ("made");
      exception
         when Program_Error =>
            Put_Line ("late");
      end Finalize;

      A : Ref;
   begin
      A := new T;
   end;
end Late;
