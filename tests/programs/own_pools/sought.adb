--  An Allocate that seeks a block, with a loop, handlers, a block with an object, and a return statement: what it
--  declares is finalized before the new object begins, also where it raises (RM 7.6.1, 13.11).
with Ada.Finalization;        use Ada.Finalization;
with Ada.Text_IO;             use Ada.Text_IO;
with System;                  use System;
with System.Storage_Elements; use System.Storage_Elements;
with Block_Pools;             use Block_Pools;

procedure Sought is
   type T is new Controlled with record
      N : Integer := 0;
   end record;

   overriding procedure Finalize (X : in out T);

   type Pool is new Block_Pool with record
      Tries : Integer;
   end record;

   overriding procedure Allocate (X : in out Pool; A : out System.Address; S, L : in Storage_Count);

   Odd : exception;

   procedure Finalize (X : in out T) is
   begin
      Put_Line ("F" & Integer'Image (X.N));
   end Finalize;

   procedure Allocate (X : in out Pool; A : out System.Address; S, L : in Storage_Count) is
   begin
      for I in 1 .. 5 loop
         begin
            X.Tries := X.Tries + 1;
            if X.Tries mod 2 = 1 then
               raise Odd;
            end if;
            declare
               H : T;
            begin
               H.N := I;
               Allocate (Block_Pool (X), A, S, L);
               return;
            end;
         exception
            when Odd =>
               Put_Line ("odd" & Integer'Image (I));
         end;
      end loop;
      raise Storage_Error;
   end Allocate;
begin
   declare
      P : Pool (16, 2);

      type Ref is access T with Storage_Pool => P;

      A, B, C : Ref;
   begin
      A := new T;
      A.N := 21;
      B := new T;
      B.N := 22;
      begin
         C := new T;
      exception
         when Storage_Error =>
            Put_Line ("SE" & Integer'Image (P.Tries));
      end;
   end;
end Sought;
