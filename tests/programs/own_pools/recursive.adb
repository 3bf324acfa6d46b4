--  Each call has a pool type, a pool and a collection of its own; its Allocate and Deallocate see the variables of
--  that call (RM 8.3, 13.11).
with Ada.Finalization;        use Ada.Finalization;
with Ada.Text_IO;             use Ada.Text_IO;
with Ada.Unchecked_Deallocation;
with System;                  use System;
with System.Storage_Elements; use System.Storage_Elements;
with Block_Pools;             use Block_Pools;

procedure Recursive is
   type T is new Controlled with record
      N : Integer := 0;
   end record;

   overriding procedure Finalize (X : in out T);

   procedure Finalize (X : in out T) is
   begin
      Put_Line ("F" & Integer'Image (X.N));
   end Finalize;

   procedure Go (M : Integer) is
      Mine : Integer := M * 10;

      type Pool is new Block_Pool with null record;

      overriding procedure Allocate (X : in out Pool; A : out System.Address; S, L : in Storage_Count);
      overriding procedure Deallocate (X : in out Pool; A : in System.Address; S, L : in Storage_Count);

      procedure Allocate (X : in out Pool; A : out System.Address; S, L : in Storage_Count) is
      begin
         Mine := Mine + 1;
         Put_Line ("a" & Integer'Image (Mine));
         Allocate (Block_Pool (X), A, S, L);
      end Allocate;

      procedure Deallocate (X : in out Pool; A : in System.Address; S, L : in Storage_Count) is
      begin
         Mine := Mine + 2;
         Put_Line ("d" & Integer'Image (Mine));
         Deallocate (Block_Pool (X), A, S, L);
      end Deallocate;
   begin
      declare
         P : Pool (16, 2);

         type Ref is access T with Storage_Pool => P;

         procedure Free is new Ada.Unchecked_Deallocation (T, Ref);

         A, B : Ref;
      begin
         A := new T;
         A.N := M;
         if M < 3 then
            Go (M + 1);
         end if;
         B := new T;
         B.N := M + 100;
         Free (A);
         Put_Line ("m" & Integer'Image (Mine));
      end;
   end Go;
begin
   Go (1);
end Recursive;
