--  The end of a collection finalizes its objects and calls no Deallocate: the one block stays out (RM 7.6.1,
--  13.11.2).
with Ada.Finalization;        use Ada.Finalization;
with Ada.Text_IO;             use Ada.Text_IO;
with System;                  use System;
with System.Storage_Elements; use System.Storage_Elements;
with Block_Pools;             use Block_Pools;

procedure Collected is
   type T is new Controlled with record
      N : Integer := 0;
   end record;

   overriding procedure Finalize (X : in out T);

   type Pool is new Block_Pool with record
      Taken : Integer;
   end record;

   overriding procedure Allocate (X : in out Pool; A : out System.Address; S, L : in Storage_Count);
   overriding procedure Deallocate (X : in out Pool; A : in System.Address; S, L : in Storage_Count);

   procedure Finalize (X : in out T) is
   begin
      Put_Line ("F" & Integer'Image (X.N));
   end Finalize;

   procedure Allocate (X : in out Pool; A : out System.Address; S, L : in Storage_Count) is
   begin
      Allocate (Block_Pool (X), A, S, L);
      X.Taken := X.Taken + 1;
   end Allocate;

   procedure Deallocate (X : in out Pool; A : in System.Address; S, L : in Storage_Count) is
   begin
      Deallocate (Block_Pool (X), A, S, L);
      X.Taken := X.Taken - 1;
   end Deallocate;
begin
   declare
      P : Pool (16, 1);
   begin
      declare
         type Ref is access T with Storage_Pool => P;

         A : Ref;
      begin
         A := new T;
      end;
      Put_Line (Integer'Image (P.Taken));
      declare
         type Ref is access T with Storage_Pool => P;

         A : Ref;
      begin
         A := new T;
      exception
         when Storage_Error =>
            Put_Line ("SE");
      end;
   end;
end Collected;
